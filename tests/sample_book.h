/* The book of document 01's session. */
#ifndef SAMPLE_BOOK_H
#define SAMPLE_BOOK_H

#include "made_book.h"

/* Nodes 1 to 3, and the goal that is asked at node 3. */
enum { BOOK_SIZE = 1024, GOAL = 18, SAMPLE_TERMS = 19, SAMPLE_NODES = 3 };

static inline size_t sample_book(uint8_t *book) {
    static const uint32_t names[] = {0, 1, 1, 1, 2, 1, 3, 1, 4, 1, 5, 1};
    static const uint32_t constants[] = {0, 1, 1, 1, 2, 1};
    static const uint32_t functions[] = {3, 1, 0, 1, 1, 1};
    static const uint32_t axioms[] = {4, 2, 1};
    static const uint32_t terms[SAMPLE_TERMS][7] = {
        {3, 2}, {5, 0, 3, 1}, {3, 2}, {4, 4, 4, 2}, {8, 1, 6, 1, 0, 0, 3}, /* (forall ((z Int)) (= (f z) z)) */
        {1, 0}, {3, 0}, {4, 5, 7, 2},                                      /* (< 0 x) */
        {3, 1}, {3, 0}, {5, 0, 9, 1}, {4, 4, 10, 2},                       /* (= y (f x)) */
        {3, 0}, {1, 9}, {4, 5, 12, 2},                                     /* (< x 9) */
        {1, 0}, {3, 1}, {5, 0, 14, 1}, {4, 5, 15, 2},                      /* (< 0 (f y)) */
    };
    static const uint32_t contexts[] = {0, 7, 0, 1, 11, 0, 1, 14, 0};
    static const uint32_t lists[] = {1, 0, 0, 0, 1, 2, 2, 5, 6, 9, 8, 10, 12, 13, 16, 15, 17};
    const struct section sections[SECTIONS - 1] = {
        {names, 6, 2}, {NULL, 0, 0},                {constants, 3, 2},           {functions, 1, 6}, {axioms, 1, 3},
        {NULL, 0, 0},  {terms[0], SAMPLE_TERMS, 7}, {contexts, SAMPLE_NODES, 3}, {lists, 17, 1},
    };
    return write_book(book, "xyzf=<", sections);
}

#endif
