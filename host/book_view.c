#include "book_view.h"

#include "numbers.h"

#include <string.h>

/* The table of contents has a pair for each section: where it begins, and how many records it has. */
enum { PAIR_SIZE = 2 * NUMBER_SIZE };

static const uint32_t RECORD_SIZES[] = {
    [SECTION_LETTERS] = 1,
    [SECTION_NAMES] = 2 * NUMBER_SIZE,
    [SECTION_TYPES] = NUMBER_SIZE,
    [SECTION_CONSTANTS] = 2 * NUMBER_SIZE,
    [SECTION_FUNCTIONS] = 6 * NUMBER_SIZE,
    [SECTION_AXIOMS] = 3 * NUMBER_SIZE,
    [SECTION_PATTERNS] = 2 * NUMBER_SIZE,
    [SECTION_TERMS] = 7 * NUMBER_SIZE,
    [SECTION_CONTEXTS] = 3 * NUMBER_SIZE,
    [SECTION_LISTS] = NUMBER_SIZE,
};

static const char TAG[] = "%tag";

struct letters letters_of(const char *text) {
    return (struct letters){(const uint8_t *)text, strlen(text)};
}

bool letters_are_same(struct letters one, struct letters other) {
    return one.length == other.length && memcmp(one.at, other.at, one.length) == 0;
}

static const uint8_t *record_at(const struct bytes *book, enum section section, uint32_t record) {
    size_t offset = number_at(book->at + (size_t)section * PAIR_SIZE);
    return book->at + offset + (size_t)record * RECORD_SIZES[section];
}

uint32_t book_count(const struct bytes *book, enum section section) {
    return number_at(book->at + (size_t)section * PAIR_SIZE + NUMBER_SIZE);
}

uint32_t book_field(const struct bytes *book, enum section section, uint32_t record, uint32_t field) {
    return number_at(record_at(book, section, record) + (size_t)field * NUMBER_SIZE);
}

/* The text of a name. */
static struct letters text_of(const struct bytes *book, uint32_t name) {
    uint32_t start = book_field(book, SECTION_NAMES, name, NAME_START);
    return (struct letters){record_at(book, SECTION_LETTERS, start), book_field(book, SECTION_NAMES, name, NAME_LENGTH)};
}

struct letters book_name_at(const struct bytes *book, enum section section, uint32_t record, uint32_t field) {
    return text_of(book, book_field(book, section, record, field));
}

uint32_t book_entry(const struct bytes *book, uint32_t entry) {
    return book_field(book, SECTION_LISTS, entry, 0);
}

enum term_kind book_term_kind(const struct bytes *book, uint32_t term) {
    return (enum term_kind)book_term_field(book, term, TERM_KIND);
}

uint32_t book_term_field(const struct bytes *book, uint32_t term, enum term_field field) {
    return book_field(book, SECTION_TERMS, term, field);
}

bool book_is_tag(const struct bytes *book, uint32_t term) {
    return book_term_kind(book, term) == TERM_LITERAL &&
           letters_are_same(book_name_at(book, SECTION_TERMS, term, LITERAL_NAME), letters_of(TAG));
}
