/* Books of as many terms as there may be, and all that can refer to a term. */
#ifndef REFERRING_H
#define REFERRING_H

#include "growth_calls.h"

enum { MOST_TERMS = 1024 };

/* Kinds of terms, and how many numbers a term has. */
enum { ID = 3, BUILT_IN, FUNCTION, IF_THEN_ELSE, LET, QUANTIFIER, TERM_FIELDS = 7 };

/* Two terms that may have children, and one that is a child where there has to be one more. */
enum { LAST = MOST_TERMS - 1, LOWER = 1000, FILLER = 500 };

static struct records book;

/* A book of so many terms, none of which has a child. */
static inline void begin_book(size_t terms) {
    memset(&book, 0, sizeof book);
    add_name(&book, "x");
    ADD(&book, CONSTANTS, X_NAME, INT_TYPE);
    ADD(&book, FUNCTIONS, X_NAME, INT_TYPE);
    while (book.counts[TERMS] < terms) {
        ADD(&book, TERMS, ID, X);
    }
}

static inline void set_term(uint32_t term, const uint32_t fields[TERM_FIELDS]) {
    memcpy(book.numbers[TERMS] + term * TERM_FIELDS, fields, TERM_FIELDS * sizeof fields[0]);
}

#define SET_TERM(term, ...) set_term(term, (const uint32_t[TERM_FIELDS]){__VA_ARGS__})

static inline uint32_t add_entries(const uint32_t *entries, size_t count) {
    uint32_t start = (uint32_t)book.counts[LISTS];
    for (size_t i = 0; i < count; i++) {
        ADD(&book, LISTS, entries[i]);
    }
    return start;
}

#define LIST(...) add_entries((const uint32_t[]){__VA_ARGS__}, sizeof((const uint32_t[]){__VA_ARGS__}) / sizeof(uint32_t))

/* What refers to a term. */
static inline void by_last(uint32_t term) {
    SET_TERM(LAST, BUILT_IN, X_NAME, LIST(term), 1);
}

static inline void by_lower(uint32_t term) {
    SET_TERM(LOWER, BUILT_IN, X_NAME, LIST(term), 1);
}

static inline void by_axiom(uint32_t term) {
    ADD(&book, AXIOMS, term);
}

static inline void by_node(uint32_t term) {
    ADD(&book, CONTEXTS, 0, term);
}

/* A child is smaller than its parent; an axiom and a node are new each time. */
static const struct referrer {
    const char *name;
    void (*refer)(uint32_t);
    uint32_t below;
    int is_new;
} REFERRERS[] = {
    {"the last term", by_last, LAST, 0},
    {"a lower term", by_lower, LOWER, 0},
    {"an axiom", by_axiom, MOST_TERMS, 1},
    {"a node", by_node, MOST_TERMS, 1},
};
enum { REFERRER_COUNT = sizeof REFERRERS / sizeof REFERRERS[0] };

/* Two places of the last term that refer to terms. */
static inline void by_arguments(uint32_t first, uint32_t second) {
    SET_TERM(LAST, BUILT_IN, X_NAME, LIST(first, second), 2);
}

static inline void by_function_arguments(uint32_t first, uint32_t second) {
    SET_TERM(LAST, FUNCTION, 0, LIST(first, second), 2);
}

static inline void by_guard_and_then(uint32_t first, uint32_t second) {
    SET_TERM(LAST, IF_THEN_ELSE, first, second, FILLER);
}

static inline void by_guard_and_else(uint32_t first, uint32_t second) {
    SET_TERM(LAST, IF_THEN_ELSE, first, FILLER, second);
}

static inline void by_then_and_else(uint32_t first, uint32_t second) {
    SET_TERM(LAST, IF_THEN_ELSE, FILLER, first, second);
}

static inline void by_sides_of_let(uint32_t first, uint32_t second) {
    SET_TERM(LAST, LET, X, first, second);
}

static inline void by_pattern(uint32_t first, uint32_t second) {
    ADD(&book, PATTERNS, LIST(first, second), 2);
    SET_TERM(LAST, QUANTIFIER, 1, 0, 0, LIST(0), 1, FILLER);
}

static inline void by_patterns(uint32_t first, uint32_t second) {
    ADD(&book, PATTERNS, LIST(first), 1);
    ADD(&book, PATTERNS, LIST(second), 1);
    SET_TERM(LAST, QUANTIFIER, 1, 0, 0, LIST(0, 1), 2, FILLER);
}

static inline void by_pattern_and_body(uint32_t first, uint32_t second) {
    ADD(&book, PATTERNS, LIST(first), 1);
    SET_TERM(LAST, QUANTIFIER, 1, 0, 0, LIST(0), 1, second);
}

static const struct places {
    const char *name;
    void (*refer)(uint32_t, uint32_t);
} PLACES[] = {
    {"two arguments", by_arguments},
    {"two arguments of a function", by_function_arguments},
    {"guard and then", by_guard_and_then},
    {"guard and else", by_guard_and_else},
    {"then and else", by_then_and_else},
    {"the sides of a let", by_sides_of_let},
    {"a pattern", by_pattern},
    {"two patterns", by_patterns},
    {"a pattern and the body", by_pattern_and_body},
};
enum { PLACES_COUNT = sizeof PLACES / sizeof PLACES[0] };

#endif
