/* Books for the tests of the writer: records are added one by one, and the whole is written anew. */
#ifndef RECORD_BOOK_H
#define RECORD_BOOK_H

#include "made_book.h"

/* The sections but for the letters, in their order. */
enum { NAMES, TYPES, CONSTANTS, FUNCTIONS, AXIOMS, PATTERNS, TERMS, CONTEXTS, LISTS, NUMBERED };

static const size_t FIELDS[NUMBERED] = {2, 1, 2, 6, 3, 2, 7, 3, 1};
static const size_t MOST[NUMBERED] = {512, 64, 256, 128, 128, 128, 1024, 512, 2048};

/* One letter and one record more than there may be, and the numbers of the longest section. */
enum { MOST_LETTERS = 8192, MOST_DEPTH = 400, ROOM_LETTERS = MOST_LETTERS + 2, ROOM_NUMBERS = 1025 * 7, ROOM_BOOK = 65536 };

struct records {
    char letters[ROOM_LETTERS];
    uint32_t numbers[NUMBERED][ROOM_NUMBERS];
    size_t counts[NUMBERED];
};

/* Adds a record, whose fields behind those given are 0. */
#define ADD(records, section, ...) \
    add_record(records, section, (const uint32_t[]){__VA_ARGS__}, sizeof((const uint32_t[]){__VA_ARGS__}) / sizeof(uint32_t))

static inline void add_record(struct records *r, int section, const uint32_t *fields, size_t count) {
    uint32_t *at = r->numbers[section] + r->counts[section]++ * FIELDS[section];
    memset(at, 0, FIELDS[section] * sizeof at[0]);
    memcpy(at, fields, count * sizeof at[0]);
}

/* Adds a name with letters of its own. */
static inline void add_name(struct records *r, const char *text) {
    uint32_t start = strlen(text) == 0 ? 0 : (uint32_t)strlen(r->letters);
    strcat(r->letters, text);
    ADD(r, NAMES, start, (uint32_t)strlen(text));
}

static inline size_t write_records(uint8_t *book, const struct records *r) {
    struct section sections[NUMBERED];
    for (int s = 0; s < NUMBERED; s++) {
        sections[s] = (struct section){r->numbers[s], r->counts[s], FIELDS[s]};
    }
    return write_book(book, r->letters, sections);
}

#endif
