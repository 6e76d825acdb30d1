/* A small book whose sessions are written down by hand, for the tests of the turns. */
#ifndef TURN_BOOK_H
#define TURN_BOOK_H

#include "turn_calls.h"

/*
 * Node 1 declares a type and a constant, node 2 below it a function and its axiom, node 3 beside that a literal. The other nodes hang
 * below each other from node 2 on, say `true`, and declare nothing.
 */
enum { AXIOM_TERM, CONSTANT_TERM, FUNCTION_TERM, LITERAL_TERM, FIRST_TRUE };
enum { ROOT, CONSTANT_NODE, FUNCTION_NODE, LITERAL_NODE, FIRST_BELOW };
enum { CONSTANT_NAME, TYPE_NAME, FUNCTION_NAME, LITERAL_NAME };

/* A node of that row is one less deep than its number says. */
enum { LAST_NARROW = NARROW_DEPTH + 1, FIRST_DEEP = LAST_NARROW + 1, NODES = FIRST_DEEP };

/* Adds nodes to the row. */
static inline void add_below(struct records *r, size_t last) {
    while (r->counts[CONTEXTS] < last) {
        uint32_t above = r->counts[CONTEXTS] < FIRST_BELOW ? FUNCTION_NODE : (uint32_t)r->counts[CONTEXTS];
        ADD(r, CONTEXTS, above, (uint32_t)r->counts[TERMS]);
        ADD(r, TERMS, BOOLEAN, 1);
    }
}

static inline void small_records(struct records *r) {
    memset(r, 0, sizeof *r);
    add_name(r, "c");
    add_name(r, "T");
    add_name(r, "f");
    add_name(r, "l");
    ADD(r, TYPES, TYPE_NAME);
    ADD(r, CONSTANTS, CONSTANT_NAME, USER_TYPE);
    ADD(r, FUNCTIONS, FUNCTION_NAME, BOOL, 0, 0, 0, 1);
    ADD(r, AXIOMS, AXIOM_TERM, 0, 1);
    ADD(r, LISTS, 0);
    ADD(r, TERMS, BOOLEAN, 1);
    ADD(r, TERMS, ID, 0);
    ADD(r, TERMS, FUNCTION, 0);
    ADD(r, TERMS, LITERAL, LITERAL_NAME, USER_TYPE);
    ADD(r, CONTEXTS, ROOT, CONSTANT_TERM);
    ADD(r, CONTEXTS, CONSTANT_NODE, FUNCTION_TERM);
    ADD(r, CONTEXTS, CONSTANT_NODE, LITERAL_TERM);
    add_below(r, NODES);
}

static inline uint32_t depth_of(uint32_t node) {
    return node < FUNCTION_NODE ? node : node <= LITERAL_NODE ? 2 : node - 1;
}

/* The session at a node; a question has a goal and something that is owed. */
static inline struct session session_at(uint32_t node, uint32_t goal, uint32_t owed) {
    struct session s = {.node = node, .goal = goal, .owed = owed};
    s.levels[TYPE_PLACE] = s.levels[CONSTANT_PLACE] = node == ROOT ? 0 : 1;
    if (node == LITERAL_NODE) {
        s.levels[LITERAL_PLACE + LITERAL_TERM] = 2;
    } else if (node >= FUNCTION_NODE) {
        s.levels[FUNCTION_PLACE] = s.levels[AXIOM_PLACE] = 2;
    }
    return s;
}

static struct records records;
static struct desk desk;

/* The book, and the session as an image to turn. */
static inline void set_up(const struct turn *turn, const struct session *s) {
    desk.book_len = write_records(desk.book, &records);
    lay(&desk, turn, s);
}

#endif
