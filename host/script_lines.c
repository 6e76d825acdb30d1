#include "script_lines.h"

#include <string.h>

enum { FIRST_LETTER = ' ', LAST_LETTER = '~' };

static const char PUSH[] = "(push 1)";
static const char POP[] = "(pop 1)";
static const char CHECK_SAT[] = "(check-sat)";
static const char GET_MODEL[] = "(get-model)";
static const char *const JOINING[] = {"(assert ", "(declare-fun ", "(declare-sort "};

/* A line, without its end, and its number. */
struct script_line {
    const char *at;
    size_t length;
    size_t number;
    bool is_ended;
};

/* Goes to the next line; one that is all zero stands before the first. */
static bool next_line(const struct bytes *script, struct script_line *line) {
    const char *text = (const char *)script->at;
    size_t from = line->at == NULL ? 0 : (size_t)(line->at - text) + line->length + 1;
    if (from >= script->length) {
        return false;
    }
    const char *end = memchr(text + from, '\n', script->length - from);
    line->at = text + from;
    line->length = end == NULL ? script->length - from : (size_t)(end - line->at);
    line->is_ended = end != NULL;
    line->number++;
    return true;
}

static bool is_line(const struct script_line *line, const char *text) {
    return line->length == strlen(text) && memcmp(line->at, text, line->length) == 0;
}

static bool begins(const struct script_line *line, const char *text) {
    return line->length >= strlen(text) && memcmp(line->at, text, strlen(text)) == 0;
}

/* Its last byte, and none before it, closes its first parenthesis. Between bars stands any letter. */
static bool is_closed(const struct script_line *line) {
    size_t depth = 0;
    bool is_between = false;
    for (size_t i = 0; i < line->length; i++) {
        char letter = line->at[i];
        if (letter < FIRST_LETTER || letter > LAST_LETTER || (i > 0 && depth == 0)) {
            return false;
        }
        if (letter == '|') {
            is_between = !is_between;
        } else if (!is_between && (letter == ';' || letter == '"')) {
            return false;
        } else if (!is_between) {
            depth += letter == '(' ? 1 : 0;
            depth -= letter == ')' ? 1 : 0;
        }
    }
    return depth == 0;
}

/* A command that asserts or declares. */
static bool joins(const struct script_line *line) {
    for (size_t i = 0; i < sizeof JOINING / sizeof JOINING[0]; i++) {
        if (begins(line, JOINING[i])) {
            return is_closed(line);
        }
    }
    return false;
}

/* Goes back a level, where there is one above the first. */
static enum line_fault pop(size_t *levels) {
    if (*levels == 0) {
        return LINE_POPS;
    }
    (*levels)--;
    return LINE_GOOD;
}

/* What is wrong with a line before which there are so many levels above the first; they become those behind it. */
static enum line_fault fault_of(const struct script_line *line, size_t *levels) {
    if (!line->is_ended) {
        return LINE_UNENDED;
    }
    if (is_line(line, PUSH)) {
        (*levels)++;
        return LINE_GOOD;
    }
    if (is_line(line, POP)) {
        return pop(levels);
    }
    return is_line(line, CHECK_SAT) || is_line(line, GET_MODEL) || joins(line) ? LINE_GOOD : LINE_FOREIGN;
}

enum line_fault script_first_fault(const struct bytes *script, size_t *number) {
    struct script_line line = {0};
    size_t levels = 0;
    enum line_fault fault = LINE_GOOD;
    while (fault == LINE_GOOD && next_line(script, &line)) {
        fault = fault_of(&line, &levels);
    }
    *number = line.number;
    return fault;
}

size_t script_check_count(const struct bytes *script) {
    struct script_line line = {0};
    size_t count = 0;
    while (next_line(script, &line)) {
        count += is_line(&line, CHECK_SAT) ? 1 : 0;
    }
    return count;
}

size_t script_check_line(const struct bytes *script, size_t check) {
    struct script_line line = {0};
    size_t count = 0;
    while (next_line(script, &line)) {
        count += is_line(&line, CHECK_SAT) ? 1 : 0;
        if (count == check) {
            return line.number;
        }
    }
    return 0;
}
