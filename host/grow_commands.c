#include "commands.h"

#include "book_view.h"
#include "new_file.h"
#include "numbers.h"
#include "refusals.h"
#include "show.h"

#include <inttypes.h>
#include <stdio.h>
#include <string.h>

static const char NEW_USAGE[] = "usage: leskofar new -o BOOK";

enum { SECTION_COUNT = SECTION_LISTS + 1, CONTENTS_SIZE = SECTION_COUNT * 2 * NUMBER_SIZE };

/* A table of contents and nothing behind it: each section begins there, and has no record. */
static bool make_empty(struct bytes *book) {
    bool is_made = true;
    for (size_t section = 0; is_made && section < SECTION_COUNT; section++) {
        is_made = number_add(book, CONTENTS_SIZE) && number_add(book, 0);
    }
    if (!is_made) {
        complain("the memory does not suffice");
    }
    return is_made;
}

bool command_write(const char *path, const struct bytes *book) {
    int error = new_file_write(path, book->at, book->length);
    if (error != 0) {
        complain("%s: %s", path, strerror(error));
    }
    return error == 0;
}

enum status command_new(int count, char **arguments) {
    struct operands words;
    struct bytes book = {0};
    const char *path = NULL;
    const struct option options[] = {{.name = "-o", .text = &path}};
    if (!options_read(count, arguments, options, sizeof options / sizeof options[0], &words)) {
        return STATUS_REFUSED;
    }
    if (words.count != 0 || path == NULL) {
        complain(NEW_USAGE);
        return STATUS_REFUSED;
    }
    bool is_done = make_empty(&book) && command_write(path, &book);
    bytes_free(&book);
    return is_done ? STATUS_DONE : STATUS_REFUSED;
}

/* The book has passed its test, so what is refused here is the growth. */
static bool is_grown(const char *path, uint32_t refusal) {
    if (refusal != LESKOFAR_ACCEPTED) {
        complain("%s: refused %" PRIu32 "%s: %s", path, refusal, refusal_place(refusal), refusal_meaning(refusal));
    }
    return refusal == LESKOFAR_ACCEPTED;
}

static enum status grow(const char *command, int count, char **arguments) {
    struct growth growth;
    struct writer writer = {0};
    bool is_done = growth_read(command, count, arguments, true, &growth) && command_open(&writer, growth.book) &&
                   command_accepted(growth.book, writer_test_book(&writer)) &&
                   is_grown(growth.book, writer_grow(&writer, &growth)) && command_write(growth.new_book, &writer.book);
    if (is_done) {
        (void)printf("%" PRIu32 "\n", writer.number);
    }
    growth_free(&growth);
    writer_free(&writer);
    return show_end() && is_done ? STATUS_DONE : STATUS_REFUSED;
}

enum status command_append(int count, char **arguments) {
    return grow("append", count, arguments);
}

enum status command_extend(int count, char **arguments) {
    return grow("extend", count, arguments);
}

enum status command_equate(int count, char **arguments) {
    return grow("equate", count, arguments);
}

enum status command_record(int count, char **arguments) {
    return grow("record", count, arguments);
}

enum status command_point(int count, char **arguments) {
    return grow("point", count, arguments);
}
