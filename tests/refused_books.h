/* Books that are refused by themselves, each made from the small one of the writer's tests. */
#ifndef REFUSED_BOOKS_H
#define REFUSED_BOOKS_H

#include "growth_calls.h"

static inline void bad_contents(struct lent *l, struct records *r) {
    lend(l, r);
    l->book_len--;
}

static inline void too_many(struct lent *l, struct records *r) {
    memset(r->letters, 'a', MOST_LETTERS + 1);
    lend(l, r);
}

static inline void bad_letter(struct lent *l, struct records *r) {
    r->letters[0] = 0x1F;
    lend(l, r);
}

static inline void no_forest(struct lent *l, struct records *r) {
    r->numbers[LISTS][1] = USED;
    lend(l, r);
}

static inline void too_deep(struct lent *l, struct records *r) {
    for (uint32_t node = 2; node <= MOST_DEPTH + 1; node++) {
        ADD(r, TERMS, 0, 1);
        ADD(r, CONTEXTS, node - 1, (uint32_t)r->counts[TERMS] - 1, 0);
    }
    lend(l, r);
}

/* Of a constant that nobody uses. */
static inline void empty_name(struct lent *l, struct records *r) {
    add_name(r, "");
    ADD(r, CONSTANTS, (uint32_t)r->counts[NAMES] - 1, INT_TYPE);
    lend(l, r);
}

static inline void short_scratch(struct lent *l, struct records *r) {
    no_forest(l, r);
    l->scratch_len = LESKOFAR_SCRATCH - 1;
}

/* In the order of the refusals; for the first one the scratch is short besides. */
static const struct refused_book {
    uint32_t refusal;
    void (*lend)(struct lent *, struct records *);
} REFUSED_BOOKS[] = {
    {LESKOFAR_SHORT_SCRATCH, short_scratch},   {LESKOFAR_BAD_CONTENTS, bad_contents}, {LESKOFAR_COUNT_OVER_LIMIT, too_many},
    {LESKOFAR_FIELD_OUT_OF_RANGE, bad_letter}, {LESKOFAR_NO_FOREST, no_forest},       {LESKOFAR_TOO_DEEP, too_deep},
    {LESKOFAR_BAD_NAME, empty_name},
};
enum { REFUSED_BOOK_COUNT = sizeof REFUSED_BOOKS / sizeof REFUSED_BOOKS[0] };

#endif
