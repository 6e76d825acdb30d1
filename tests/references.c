/*
 * Refusal 5 at the edges of the scratch's bytes: books of as many terms as there may be, in which one is referred to twice, or another one
 * in its place. The scratch has just the bytes that it must, before a page that may not be touched, and all its bits are set before.
 */
#define _DEFAULT_SOURCE
#include "caught_touches.h"
#include "guarded_pages.h"
#include "referring.h"

enum { SHORTEST = 128, BITS_PER_BYTE = 8, DIRT = 0xFF, NAME_SIZE = 256 };

_Static_assert(SHORTEST * BITS_PER_BYTE == MOST_TERMS, "a scratch just long enough has a bit for each term");

/* The ends of the first byte, the start of the second, and the end of the last. */
static const uint32_t EDGE_TERMS[] = {0, 7, 8, 1022, 1023};
enum { EDGE_COUNT = sizeof EDGE_TERMS / sizeof EDGE_TERMS[0] };

static struct lent lent;
static struct pages scratch;
static uint32_t refusal;

static void test_book(void) {
    refusal = leskofar_book_test(BOOK(&lent));
}

static void lend_book(void) {
    lend(&lent, &book);
    memset(scratch.held, DIRT, scratch.held_size);
    lent.scratch_at = scratch.at;
    lent.scratch_len = SHORTEST;
}

static int is_scratch_left(void) {
    return all_are(scratch.held, scratch.held_size - SHORTEST, DIRT) && all_are(scratch.at, SHORTEST, 0);
}

static int is_answered(uint32_t wanted) {
    lend_book();
    return comes_to_its_end(test_book) && refusal == wanted && is_scratch_left();
}

/* A pair of references: from two places of the last term, or from two that refer. */
struct pair {
    const struct places *places;
    const struct referrer *first;
    const struct referrer *second;
};

static void refer(const struct pair *p, uint32_t first, uint32_t second) {
    begin_book(MOST_TERMS);
    if (p->places != NULL) {
        p->places->refer(first, second);
    } else {
        p->first->refer(first);
        p->second->refer(second);
    }
}

/* Where the pair can refer to these two, it is accepted just if they differ. */
static void pair_test(const struct pair *p, uint32_t first, uint32_t second) {
    char name[NAME_SIZE];
    if (first >= p->first->below || second >= p->second->below) {
        return;
    }
    const unsigned a = first;
    const unsigned b = second;
    int length = p->places != NULL
                     ? snprintf(name, sizeof name, "terms %u and %u by %s of the last term", a, b, p->places->name)
                     : snprintf(name, sizeof name, "term %u by %s and term %u by %s", a, p->first->name, b, p->second->name);
    stop_if(length < 0 || length >= NAME_SIZE, "name a test");
    refer(p, first, second);
    expect(name, is_answered(first == second ? LESKOFAR_NO_FOREST : LESKOFAR_ACCEPTED));
}

/* The same term twice; one whose bit is in the same byte; and the same bit of the bytes beside it. */
static void edge_tests(const struct pair *p) {
    for (int i = 0; i < EDGE_COUNT; i++) {
        const uint32_t term = EDGE_TERMS[i];
        const uint32_t byte = term / BITS_PER_BYTE * BITS_PER_BYTE;
        for (uint32_t other = byte; other < byte + BITS_PER_BYTE; other++) {
            pair_test(p, term, other);
        }
        pair_test(p, term, term + BITS_PER_BYTE);
        if (term >= BITS_PER_BYTE) {
            pair_test(p, term, term - BITS_PER_BYTE);
        }
    }
}

static void pair_tests(void) {
    for (int i = 0; i < PLACES_COUNT; i++) {
        edge_tests(&(struct pair){&PLACES[i], &REFERRERS[0], &REFERRERS[0]});
    }
    for (int i = 0; i < REFERRER_COUNT; i++) {
        for (int j = 0; j < REFERRER_COUNT; j++) {
            if (i != j || REFERRERS[i].is_new) {
                edge_tests(&(struct pair){NULL, &REFERRERS[i], &REFERRERS[j]});
            }
        }
    }
}

/* Each term is the only argument of the next, and the last one a node's: so every bit is used. Then a second reference to any of them. */
static void every_term_tests(void) {
    int are_good = 1;
    begin_book(MOST_TERMS);
    for (uint32_t term = 1; term < MOST_TERMS; term++) {
        SET_TERM(term, BUILT_IN, X_NAME, LIST(term - 1), 1);
    }
    by_node(LAST);
    expect("each of 1,024 terms referred to once", is_answered(LESKOFAR_ACCEPTED));
    for (uint32_t term = 0; term < MOST_TERMS; term++) {
        by_node(term);
        are_good = is_answered(LESKOFAR_NO_FOREST) && are_good;
        book.counts[CONTEXTS]--;
        by_axiom(term);
        are_good = is_answered(LESKOFAR_NO_FOREST) && are_good;
        book.counts[AXIOMS]--;
    }
    expect("and one of them twice", are_good);
}

/* Books around the fewest and the most terms. */
static void count_tests(void) {
    begin_book(0);
    expect("a book without terms", is_answered(LESKOFAR_ACCEPTED));
    by_axiom(UINT32_MAX);
    expect("an axiom without a term", is_answered(LESKOFAR_ACCEPTED));
    memset(&book, 0, sizeof book);
    expect("a book without records", is_answered(LESKOFAR_ACCEPTED));
    begin_book(1);
    by_node(0);
    expect("a term alone", is_answered(LESKOFAR_ACCEPTED));
    by_axiom(0);
    expect("a term alone, twice", is_answered(LESKOFAR_NO_FOREST));
    begin_book(MOST_TERMS);
    expect("1,024 terms in no use", is_answered(LESKOFAR_ACCEPTED));
    begin_book(MOST_TERMS + 1);
    by_node(MOST_TERMS);
    by_axiom(MOST_TERMS);
    expect("the bit of a term too many is never looked for", is_answered(LESKOFAR_COUNT_OVER_LIMIT));
}

static leskofar_appended grown;

static void grow_argument(void) {
    uint8_t argument[NUMBER];
    put_number(argument, LAST - 1);
    grown = leskofar_append_term(BOOK(&lent), BUILT_IN, X_NAME, 0, 0, 0, 0, 0, argument, sizeof argument, NULL, 0, NEW(&lent));
}

static void grow_at_last(void) {
    grown = leskofar_append_node(BOOK(&lent), 0, LAST, 0, NEW(&lent));
}

static int grows(void (*call)(void), uint32_t wanted, uint32_t number) {
    lend_book();
    return comes_to_its_end(call) && grown.refusal == wanted && grown.number == number && is_scratch_left();
}

/* A book that grows up to the last bit: the term before the last as its argument, and the last one at a new node. */
static void growth_tests(void) {
    begin_book(LAST);
    expect("the last term is new", grows(grow_argument, LESKOFAR_ACCEPTED, LAST));
    by_node(LAST - 1);
    expect("its argument is in use", grows(grow_argument, LESKOFAR_NO_FOREST, 0));
    begin_book(MOST_TERMS);
    expect("the last term at a node", grows(grow_at_last, LESKOFAR_ACCEPTED, 1));
    by_node(LAST);
    expect("it is in use", grows(grow_at_last, LESKOFAR_NO_FOREST, 0));
}

int main(void) {
    scratch = pages_for(SHORTEST, AT_END);
    pair_tests();
    every_term_tests();
    count_tests();
    growth_tests();
    give_back(&scratch);
    return close_tests();
}
