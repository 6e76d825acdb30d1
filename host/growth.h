/* What is to be appended to a book, as words say it: on the command line, where files are named besides, and in the lines of `work`. */
#ifndef GROWTH_H
#define GROWTH_H

#include "options.h"

/* The library's calls that append. */
enum growth_kind {
    GROWTH_NAME,
    GROWTH_CONSTANT,
    GROWTH_TERM,
    GROWTH_NODE,
    GROWTH_EXTEND,
    GROWTH_EQUATE,
    GROWTH_RECORD,
    GROWTH_POINT
};

/* The most numbers that one takes: a term's kind and fields. */
enum { GROWTH_MOST_NUMBERS = 7 };

struct growth {
    enum growth_kind kind;
    uint32_t numbers[GROWTH_MOST_NUMBERS]; /* in the order of the words; those that are not given are 0 */
    const char *text;                      /* NULL where none is given */
    struct bytes first;                    /* a term's lists, as the library takes them */
    struct bytes second;
    const char *book; /* the files, on the command line */
    const char *new_book;
};

/* Whether a command appends. */
bool growth_is_command(const char *command);

/*
 * Reads the arguments behind a command's name, with the files where `has_files` is given. False after a complaint. What is read points
 * into the arguments; in any case it is to be freed.
 */
bool growth_read(const char *command, int count, char **arguments, bool has_files, struct growth *growth);

void growth_free(struct growth *growth);

#endif
