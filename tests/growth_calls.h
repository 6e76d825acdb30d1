/* The eight calls of the writer, each with arguments that one small book takes, and what it appends to that. */
#ifndef GROWTH_CALLS_H
#define GROWTH_CALLS_H

#include "expect.h"
#include "record_book.h"
#include <leskofar.h>

enum { FILL = 0xA5, ROOM_NEW = ROOM_BOOK, GUARD = 16 };

/* The buffers of a call. */
struct lent {
    uint8_t book[ROOM_BOOK];
    size_t book_len;
    uint8_t scratch[LESKOFAR_SCRATCH + GUARD];
    uint8_t *scratch_at; /* what a call gets: the one above, or another */
    size_t scratch_len;
    uint8_t new_book[ROOM_NEW];
    size_t new_len;
};

#define BOOK(l) (l)->book, (l)->book_len, (l)->scratch_at, (l)->scratch_len
#define NEW(l) (l)->new_book, (l)->new_len
#define TEXT(text) (const uint8_t *)(text), strlen(text)

/* The small book: node 1 says (< x 9), and term 3, which is x, is in no use. */
enum { X_NAME, LESS_NAME, X = 0, USED = 0, FREE = 3, SMALL_TERMS = 4, NODE = 1, SMALL_NODES = 1, BOOL = 0, INT_TYPE = 1 };

static inline void small_records(struct records *r) {
    memset(r, 0, sizeof *r);
    add_name(r, "x");
    add_name(r, "<");
    ADD(r, CONSTANTS, X_NAME, INT_TYPE);
    ADD(r, TERMS, 3, X);
    ADD(r, TERMS, 1, 9);
    ADD(r, TERMS, 4, LESS_NAME, 0, 2);
    ADD(r, TERMS, 3, X);
    ADD(r, CONTEXTS, 0, 2, 0);
    ADD(r, LISTS, 0);
    ADD(r, LISTS, 1);
}

static inline leskofar_appended call_name(struct lent *l) {
    return leskofar_append_name(BOOK(l), TEXT("y"), NEW(l));
}

static inline leskofar_appended call_constant(struct lent *l) {
    return leskofar_append_constant(BOOK(l), X_NAME, INT_TYPE, NEW(l));
}

static inline leskofar_appended call_term(struct lent *l) {
    const uint8_t arguments[NUMBER] = {FREE};
    return leskofar_append_term(BOOK(l), 4, LESS_NAME, 0, 0, 0, 0, 0, arguments, sizeof arguments, NULL, 0, NEW(l));
}

static inline leskofar_appended call_node(struct lent *l) {
    return leskofar_append_node(BOOK(l), NODE, FREE, LESS_NAME + 1, NEW(l));
}

static inline leskofar_appended call_extend(struct lent *l) {
    return leskofar_extend(BOOK(l), NODE, FREE, 1, TEXT("step"), NEW(l));
}

static inline leskofar_appended call_equality(struct lent *l) {
    return leskofar_extend_with_equality(BOOK(l), NODE, X, FREE, NEW(l));
}

static inline leskofar_appended call_record(struct lent *l) {
    return leskofar_record(BOOK(l), NODE, FREE, INT_TYPE, 0, NULL, 0, NEW(l));
}

static inline leskofar_appended call_point(struct lent *l) {
    return leskofar_record_trace_point(BOOK(l), NODE, TEXT("start"), NEW(l));
}

/* What each appends, from the papers: to the small book, and to others that have these names and terms and no more of what it needs. */
static inline void grow_name(struct records *r) {
    add_name(r, "y");
}

static inline void grow_constant(struct records *r) {
    ADD(r, CONSTANTS, X_NAME, INT_TYPE);
}

static inline void grow_term(struct records *r) {
    ADD(r, TERMS, 4, LESS_NAME, (uint32_t)r->counts[LISTS], 1);
    ADD(r, LISTS, FREE);
}

static inline void grow_node(struct records *r) {
    ADD(r, CONTEXTS, NODE, FREE, LESS_NAME + 1);
}

static inline void grow_extend(struct records *r) {
    add_name(r, "step");
    ADD(r, CONTEXTS, NODE, FREE, (uint32_t)r->counts[NAMES]);
}

/* The identifier of a constant, its equality with a term, and the node. */
static inline void grow_equal(struct records *r, uint32_t equals, uint32_t constant, uint32_t term, uint32_t trace) {
    uint32_t id = (uint32_t)r->counts[TERMS];
    uint32_t start = (uint32_t)r->counts[LISTS];
    ADD(r, TERMS, 3, constant);
    ADD(r, TERMS, 4, equals, start, 2);
    ADD(r, LISTS, id);
    ADD(r, LISTS, term);
    ADD(r, CONTEXTS, NODE, id + 1, trace);
}

static inline void grow_equality(struct records *r) {
    uint32_t equals = (uint32_t)r->counts[NAMES];
    add_name(r, "=");
    grow_equal(r, equals, X, FREE, 0);
}

static inline void grow_record(struct records *r) {
    uint32_t probe = (uint32_t)r->counts[NAMES];
    uint32_t constant = (uint32_t)r->counts[CONSTANTS];
    add_name(r, "probe%1");
    add_name(r, "=");
    ADD(r, CONSTANTS, probe, INT_TYPE);
    grow_equal(r, probe + 1, constant, FREE, probe + 1);
}

static inline void grow_point(struct records *r) {
    uint32_t probe = (uint32_t)r->counts[NAMES];
    uint32_t constant = (uint32_t)r->counts[CONSTANTS];
    uint32_t truth = (uint32_t)r->counts[TERMS];
    add_name(r, "probe%1");
    add_name(r, "=");
    add_name(r, "start");
    ADD(r, CONSTANTS, probe, BOOL);
    ADD(r, TERMS, 0, 1);
    grow_equal(r, probe + 1, constant, truth, probe + 3);
}

static const struct growth_call {
    const char *name;
    leskofar_appended (*call)(struct lent *);
    void (*grow)(struct records *);
    int section; /* whose number is answered */
} CALLS[] = {
    {"append_name", call_name, grow_name, NAMES},
    {"append_constant", call_constant, grow_constant, CONSTANTS},
    {"append_term", call_term, grow_term, TERMS},
    {"append_node", call_node, grow_node, CONTEXTS},
    {"extend", call_extend, grow_extend, CONTEXTS},
    {"extend_with_equality", call_equality, grow_equality, CONTEXTS},
    {"record", call_record, grow_record, CONTEXTS},
    {"record_trace_point", call_point, grow_point, CONTEXTS},
};
enum { CALL_COUNT = sizeof CALLS / sizeof CALLS[0] };

/* The buffers for calls on a book of these records. */
static inline void lend(struct lent *l, const struct records *r) {
    l->book_len = write_records(l->book, r);
    l->scratch_at = l->scratch;
    l->scratch_len = LESKOFAR_SCRATCH;
    l->new_len = LESKOFAR_BOOK;
    memset(l->scratch, FILL, sizeof l->scratch);
    memset(l->new_book, FILL, sizeof l->new_book);
}

/* Whether a call was refused with this number and nothing else, and touched no byte of the new book; the scratch as it must be. */
static inline int was_refused(const struct lent *l, leskofar_appended answer, uint32_t refusal) {
    size_t cleared = refusal == LESKOFAR_SHORT_SCRATCH ? 0 : l->scratch_len;
    return answer.refusal == refusal && answer.number == 0 && answer.length == 0 && all_are(l->new_book, sizeof l->new_book, FILL) &&
           all_are(l->scratch, cleared, 0) && all_are(l->scratch + cleared, sizeof l->scratch - cleared, FILL);
}

/* Whether a call was accepted with this number, and wrote just the book of these records. */
static inline int has_grown(const struct lent *l, leskofar_appended answer, uint32_t number, const struct records *r) {
    static uint8_t wanted[ROOM_BOOK];
    size_t length = write_records(wanted, r);
    return answer.refusal == LESKOFAR_ACCEPTED && answer.number == number && answer.length == length &&
           memcmp(l->new_book, wanted, length) == 0 && all_are(l->new_book + length, sizeof l->new_book - length, FILL) &&
           all_are(l->scratch, l->scratch_len, 0) && all_are(l->scratch + l->scratch_len, sizeof l->scratch - l->scratch_len, FILL);
}

#endif
