#include "growth.h"

#include "complain.h"

#include <string.h>

/* How a growth is said. */
struct form {
    const char *command;
    const char *what;     /* the word behind `append`; NULL for the other commands */
    const char *operands; /* in a usage */
    const char *numbers[GROWTH_MOST_NUMBERS];
    size_t number_count; /* at most; a text stands behind them */
    size_t least;        /* how many operands there are, the text among them */
    size_t most;
};

static const char APPEND[] = "append";

static const struct form FORMS[] = {
    [GROWTH_NAME] = {APPEND, "name", "TEXT", {NULL}, 0, 1, 1},
    [GROWTH_CONSTANT] = {APPEND, "constant", "NAME TYPE", {"NAME", "TYPE"}, 2, 2, 2},
    [GROWTH_TERM] = {APPEND,
                     "term",
                     "KIND [FIELD ..] [--first N,..] [--second N,..]",
                     {"KIND", "FIELD", "FIELD", "FIELD", "FIELD", "FIELD", "FIELD"},
                     GROWTH_MOST_NUMBERS,
                     1,
                     GROWTH_MOST_NUMBERS},
    [GROWTH_NODE] = {APPEND, "node", "PARENT TERM TRACE", {"PARENT", "TERM", "TRACE"}, 3, 3, 3},
    [GROWTH_EXTEND] = {"extend", NULL, "PARENT TERM [TRACE]", {"PARENT", "TERM"}, 2, 2, 3},
    [GROWTH_EQUATE] = {"equate", NULL, "PARENT CONSTANT TERM", {"PARENT", "CONSTANT", "TERM"}, 3, 3, 3},
    [GROWTH_RECORD] = {"record", NULL, "PARENT TERM TYPE [TRACE]", {"PARENT", "TERM", "TYPE"}, 3, 3, 4},
    [GROWTH_POINT] = {"point", NULL, "PARENT TRACE", {"PARENT"}, 1, 2, 2},
};
enum { FORM_COUNT = sizeof FORMS / sizeof FORMS[0] };

bool growth_is_command(const char *command) {
    for (size_t i = 0; i < FORM_COUNT; i++) {
        if (strcmp(FORMS[i].command, command) == 0) {
            return true;
        }
    }
    return false;
}

static void complain_of_use(const char *command, const char *what, const char *operands, bool has_files) {
    complain("usage: %s%s%s%s%s %s%s", has_files ? "leskofar " : "", command, what == NULL ? "" : " ", what == NULL ? "" : what,
             has_files ? " BOOK" : "", operands, has_files ? " -o NEW" : "");
}

static void drop_first(struct operands *operands) {
    operands->at++;
    operands->count--;
}

/* The form that the command and, behind `append`, the first operand name; NULL after a complaint. */
static const struct form *form_of(const char *command, struct operands *operands, bool has_files) {
    bool is_append = strcmp(command, APPEND) == 0;
    if (is_append && operands->count == 0) {
        complain_of_use(command, "name|constant|term|node", "..", has_files);
        return NULL;
    }
    for (size_t i = 0; i < FORM_COUNT; i++) {
        bool is_named = strcmp(FORMS[i].command, command) == 0 && (!is_append || strcmp(FORMS[i].what, operands->at[0]) == 0);
        if (is_named && is_append) {
            drop_first(operands);
        }
        if (is_named) {
            return &FORMS[i];
        }
    }
    complain("%s takes name, constant, term or node, not %s", command, operands->at[0]);
    return NULL;
}

static bool read_numbers(const struct form *form, const struct operands *operands, struct growth *growth) {
    bool is_read = true;
    for (size_t i = 0; is_read && i < operands->count && i < form->number_count; i++) {
        uint64_t number = 0;
        is_read = options_number(operands->at[i], form->numbers[i], 0, UINT32_MAX, &number);
        growth->numbers[i] = (uint32_t)number;
    }
    return is_read;
}

/* Only a term has lists. */
static bool has_its_lists(const struct growth *growth) {
    bool is_good = growth->kind == GROWTH_TERM || (growth->first.length == 0 && growth->second.length == 0);
    if (!is_good) {
        complain("--first and --second are for a term");
    }
    return is_good;
}

static bool read_operands(const char *command, struct operands *operands, bool has_files, struct growth *growth) {
    const struct form *form = form_of(command, operands, has_files);
    if (form == NULL) {
        return false;
    }
    size_t files = has_files ? 1 : 0;
    bool has_count = operands->count >= files + form->least && operands->count <= files + form->most;
    if (!has_count || (has_files && growth->new_book == NULL)) {
        complain_of_use(form->command, form->what, form->operands, has_files);
        return false;
    }
    if (has_files) {
        growth->book = operands->at[0];
        drop_first(operands);
    }
    growth->kind = (enum growth_kind)(form - FORMS);
    growth->text = operands->count > form->number_count ? operands->at[form->number_count] : NULL;
    return has_its_lists(growth) && read_numbers(form, operands, growth);
}

bool growth_read(const char *command, int count, char **arguments, bool has_files, struct growth *growth) {
    *growth = (struct growth){0};
    struct operands operands;
    const struct option options[] = {{.name = "--first", .list = &growth->first},
                                     {.name = "--second", .list = &growth->second},
                                     {.name = "-o", .text = &growth->new_book}};
    size_t option_count = sizeof options / sizeof options[0] - (has_files ? 0 : 1);
    return options_read(count, arguments, options, option_count, &operands) && read_operands(command, &operands, has_files, growth);
}

void growth_free(struct growth *growth) {
    bytes_free(&growth->first);
    bytes_free(&growth->second);
}
