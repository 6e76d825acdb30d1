/* Writes books for the tests of the C interface. */
#ifndef MADE_BOOK_H
#define MADE_BOOK_H

#include <stddef.h>
#include <stdint.h>
#include <string.h>

enum { SECTIONS = 10, NUMBER = 4, CONTENTS = 2 * NUMBER * SECTIONS };

/* The records of a section as numbers, and how many numbers a record has. */
struct section {
    const uint32_t *numbers;
    size_t records;
    size_t fields;
};

static inline void put_number(uint8_t *at, size_t number) {
    for (int i = 0; i < NUMBER; i++) {
        at[i] = (uint8_t)(number >> (8 * i));
    }
}

/* Writes a book of letters and of the other sections in their order, and gives its length. */
static inline size_t write_book(uint8_t *book, const char *letters, const struct section sections[SECTIONS - 1]) {
    size_t end = CONTENTS + strlen(letters);
    put_number(book, CONTENTS);
    put_number(book + NUMBER, strlen(letters));
    memcpy(book + CONTENTS, letters, strlen(letters));
    for (int s = 0; s < SECTIONS - 1; s++) {
        uint8_t *contents = book + 2 * NUMBER * (s + 1);
        put_number(contents, end);
        put_number(contents + NUMBER, sections[s].records);
        for (size_t i = 0; i < sections[s].records * sections[s].fields; i++) {
            put_number(book + end, sections[s].numbers[i]);
            end += NUMBER;
        }
    }
    return end;
}

#endif
