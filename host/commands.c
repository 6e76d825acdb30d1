#include "commands.h"

#include "book_file.h"
#include "names.h"
#include "refusals.h"
#include "sentence.h"
#include "show.h"
#include "sorts.h"

#include <inttypes.h>
#include <stdio.h>

static bool open_book(struct writer *writer, const char *path, bool takes_standard) {
    if (!writer_begin(writer)) {
        complain("the memory does not suffice");
        return false;
    }
    return book_file_read(path, takes_standard, &writer->book);
}

bool command_open(struct writer *writer, const char *path) {
    return open_book(writer, path, false);
}

bool command_open_input(struct writer *writer, const char *path) {
    return open_book(writer, path, true);
}

bool command_accepted(const char *path, uint32_t refusal) {
    if (refusal != LESKOFAR_ACCEPTED) {
        complain("%s: refused %" PRIu32 ": %s", path, refusal, refusal_meaning(refusal));
    }
    return refusal == LESKOFAR_ACCEPTED;
}

/* Tells what a check found, as a warning or not, and answers whether the command goes on. */
static bool goes_on(const char *path, bool is_good, struct bytes *complaint, bool is_raw) {
    if (!is_good) {
        complain("%s: %s%.*s", path, is_raw ? "warning: " : "", sentence_length(complaint), sentence_text(complaint));
    }
    bytes_free(complaint);
    return is_good || is_raw;
}

bool command_names(const char *path, const struct bytes *book, bool is_raw) {
    struct bytes complaint = {0};
    bool is_good = names_check(book, &complaint);
    return goes_on(path, is_good, &complaint, is_raw);
}

bool command_names_for_z3(const char *path, const struct bytes *book) {
    struct bytes complaint = {0};
    bool is_good = names_check_for_z3(book, &complaint);
    return goes_on(path, is_good, &complaint, false);
}

bool command_sorts(const char *path, const struct bytes *book, bool is_raw) {
    struct bytes complaint = {0};
    bool is_good = sorts_check(book, &complaint);
    return goes_on(path, is_good, &complaint, is_raw);
}

/* The operands are as many as the command takes. */
static bool has_operands(const struct operands *operands, size_t count, const char *usage) {
    if (operands->count != count) {
        complain("usage: %s", usage);
    }
    return operands->count == count;
}

static enum status status_of(bool is_done) {
    bool is_shown = show_end();
    return is_done && is_shown ? STATUS_DONE : STATUS_REFUSED;
}

static const char CHECK_USAGE[] = "leskofar check BOOK [--raw-names] [--raw-sorts]";

enum status command_check(int count, char **arguments) {
    struct operands words;
    struct writer writer = {0};
    bool has_raw_names = false;
    bool has_raw_sorts = false;
    const struct option options[] = {{.name = "--raw-names", .flag = &has_raw_names}, {.name = "--raw-sorts", .flag = &has_raw_sorts}};
    bool is_done = options_read(count, arguments, options, sizeof options / sizeof options[0], &words) &&
                   has_operands(&words, 1, CHECK_USAGE) && command_open(&writer, words.at[0]) &&
                   command_accepted(words.at[0], writer_test_book(&writer)) &&
                   command_names(words.at[0], &writer.book, has_raw_names) && command_sorts(words.at[0], &writer.book, has_raw_sorts);
    if (is_done) {
        (void)printf("%s: a good book\n", words.at[0]);
    }
    writer_free(&writer);
    return status_of(is_done);
}

static const char PRINT_USAGE[] = "leskofar print BOOK TERM [--lines] [--indent N] [--tag N]";

enum status command_print(int count, char **arguments) {
    struct operands words;
    struct writer writer = {0};
    struct layout layout = {0};
    uint64_t term = 0;
    const struct option options[] = {{.name = "--lines", .flag = &layout.lines},
                                     {.name = "--indent", .number = &layout.indent, .most = UINT64_MAX},
                                     {.name = "--tag", .number = &layout.tag, .most = UINT64_MAX}};
    bool is_done = options_read(count, arguments, options, sizeof options / sizeof options[0], &words) &&
                   has_operands(&words, 2, PRINT_USAGE) && options_number(words.at[1], "TERM", 0, UINT32_MAX, &term) &&
                   command_open(&writer, words.at[0]) && command_accepted(words.at[0], writer_print(&writer, (uint32_t)term, &layout));
    if (is_done) {
        show_text(writer.text.at, writer.text.length);
        show_text((const uint8_t *)"\n", 1);
    }
    writer_free(&writer);
    return status_of(is_done);
}

enum status command_trace(int count, char **arguments) {
    struct operands words;
    struct writer writer = {0};
    uint64_t node = 0;
    bool is_done = options_read(count, arguments, NULL, 0, &words) && has_operands(&words, 2, "leskofar trace BOOK NODE") &&
                   options_number(words.at[1], "NODE", 0, UINT32_MAX, &node) && command_open(&writer, words.at[0]) &&
                   command_accepted(words.at[0], writer_trace(&writer, (uint32_t)node));
    if (is_done) {
        show_text(writer.text.at, writer.text.length);
    }
    writer_free(&writer);
    return status_of(is_done);
}

static const char LISTING_USAGE[] = "leskofar listing BOOK NODE TERM";

enum status command_listing(int count, char **arguments) {
    struct operands words;
    struct writer writer = {0};
    uint64_t node = 0;
    uint64_t term = 0;
    bool is_done = options_read(count, arguments, NULL, 0, &words) && has_operands(&words, 3, LISTING_USAGE) &&
                   options_number(words.at[1], "NODE", 0, UINT32_MAX, &node) &&
                   options_number(words.at[2], "TERM", 0, UINT32_MAX, &term) && command_open(&writer, words.at[0]) &&
                   command_accepted(words.at[0], writer_listing(&writer, (uint32_t)node, (uint32_t)term));
    if (is_done) {
        show_text(writer.text.at, writer.text.length);
    }
    writer_free(&writer);
    return status_of(is_done);
}
