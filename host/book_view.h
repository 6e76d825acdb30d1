/* Reads the records of a book. Only for books that pass the book test: no number is checked again here. */
#ifndef BOOK_VIEW_H
#define BOOK_VIEW_H

#include "bytes.h"

/* The sections, in the order of the table of contents. */
enum section {
    SECTION_LETTERS,
    SECTION_NAMES,
    SECTION_TYPES,
    SECTION_CONSTANTS,
    SECTION_FUNCTIONS,
    SECTION_AXIOMS,
    SECTION_PATTERNS,
    SECTION_TERMS,
    SECTION_CONTEXTS,
    SECTION_LISTS
};

/* The most records that a good book has of some sections. */
enum { BOOK_MOST_CONSTANTS = 256, BOOK_MOST_FUNCTIONS = 128, BOOK_MOST_TERMS = 1024 };

/* The fields of the records, by their place. */
enum name_field { NAME_START, NAME_LENGTH };
enum type_field { TYPE_NAME };
enum constant_field { CONSTANT_NAME, CONSTANT_TYPE };
enum function_field { FUNCTION_NAME, FUNCTION_RESULT, FUNCTION_INPUTS, FUNCTION_INPUT_COUNT };
enum axiom_field { AXIOM_TERM };
enum context_field { CONTEXT_PARENT, CONTEXT_TERM };
enum term_field {
    TERM_KIND,
    BOOLEAN_VALUE = 1,
    LITERAL_NAME = 1,
    LITERAL_TYPE = 2,
    ID_CONSTANT = 1,
    APPLIED = 1, /* a built-in operator's name, or a function */
    ARGUMENTS = 2,
    ARGUMENT_COUNT = 3,
    ITE_GUARD = 1,
    ITE_THEN = 2,
    ITE_ELSE = 3,
    LET_CONSTANT = 1,
    LET_VALUE = 2,
    LET_BODY = 3,
    QUANTIFIER_IS_FORALL = 1,
    QUANTIFIER_BODY = 6
};

enum term_kind {
    TERM_BOOLEAN,
    TERM_INTEGER,
    TERM_LITERAL,
    TERM_ID,
    TERM_BUILT_IN,
    TERM_FUNCTION,
    TERM_IF_THEN_ELSE,
    TERM_LET,
    TERM_QUANTIFIER
};

/* Type numbers: two built in, then the user types. */
enum { TYPE_BOOL = 0, TYPE_INT = 1, TYPE_FIRST_USER = 2 };

/* An axiom's term where it has none. */
#define BOOK_NO_TERM UINT32_MAX

/* A text that stands somewhere else, such as a name in its book. */
struct letters {
    const uint8_t *at;
    size_t length;
};

struct letters letters_of(const char *text);
bool letters_are_same(struct letters one, struct letters other);

uint32_t book_count(const struct bytes *book, enum section section);

/* A number of a record; letters are no records of numbers. */
uint32_t book_field(const struct bytes *book, enum section section, uint32_t record, uint32_t field);

/* The text of the name that a field of a record has. */
struct letters book_name_at(const struct bytes *book, enum section section, uint32_t record, uint32_t field);

/* An entry of the lists. */
uint32_t book_entry(const struct bytes *book, uint32_t entry);

enum term_kind book_term_kind(const struct bytes *book, uint32_t term);
uint32_t book_term_field(const struct bytes *book, uint32_t term, enum term_field field);

/* Whether a term is the literal %tag, which is printed as a number and not by its name. */
bool book_is_tag(const struct bytes *book, uint32_t term);

#endif
