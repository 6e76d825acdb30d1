/* A small book whose questions are written down by hand, for the tests of audits. */
#ifndef AUDIT_BOOK_H
#define AUDIT_BOOK_H

#include "audit_calls.h"

/* Kinds of terms, and types. */
enum { BOOLEAN, INTEGER, LITERAL, ID, BUILT_IN, FUNCTION };
enum { BOOL, INT, USER_TYPE };

/*
 * Node 1 declares a type and a constant. Below it node 2 declares a function whose axiom is its premise once more, node 3 a literal, and
 * node 4 a function whose axiom has no term. The goals stand in no node.
 */
enum { ROOT, CONSTANT_NODE, TWICE_NODE, LITERAL_NODE, LOST_NODE, LAST_NODE = LOST_NODE };
enum { AXIOM_TERM, CONSTANT_TERM, TWICE_TERM, LITERAL_TERM, LOST_TERM, TRUE_GOAL, OTHER_GOAL, LAST_TERM = OTHER_GOAL };
enum { CONSTANT_NAME, TYPE_NAME, TWICE_NAME, LITERAL_NAME, LOST_NAME, GOAL_NAME };
enum { TWICE, LOST };

static inline void small_records(struct records *r) {
    memset(r, 0, sizeof *r);
    add_name(r, "c");
    add_name(r, "T");
    add_name(r, "f");
    add_name(r, "l");
    add_name(r, "g");
    add_name(r, "d");
    ADD(r, TYPES, TYPE_NAME);
    ADD(r, CONSTANTS, CONSTANT_NAME, USER_TYPE);
    ADD(r, CONSTANTS, GOAL_NAME, BOOL);
    ADD(r, FUNCTIONS, TWICE_NAME, BOOL, 0, 0, 0, 1);
    ADD(r, FUNCTIONS, LOST_NAME, BOOL, 0, 0, 1, 1);
    ADD(r, AXIOMS, AXIOM_TERM, 0, 1);
    ADD(r, AXIOMS, UINT32_MAX, 1, 1);
    ADD(r, LISTS, TWICE);
    ADD(r, LISTS, LOST);
    ADD(r, TERMS, FUNCTION, TWICE);
    ADD(r, TERMS, ID, 0);
    ADD(r, TERMS, FUNCTION, TWICE);
    ADD(r, TERMS, LITERAL, LITERAL_NAME, USER_TYPE);
    ADD(r, TERMS, FUNCTION, LOST);
    ADD(r, TERMS, BOOLEAN, 1);
    ADD(r, TERMS, ID, 1);
    ADD(r, CONTEXTS, ROOT, CONSTANT_TERM);
    ADD(r, CONTEXTS, CONSTANT_NODE, TWICE_TERM);
    ADD(r, CONTEXTS, CONSTANT_NODE, LITERAL_TERM);
    ADD(r, CONTEXTS, CONSTANT_NODE, LOST_TERM);
}

static struct records records;

/* A desk with this book, no questions and no script. */
static inline void set_up(void) {
    small_records(&records);
    lay_book(&records);
}

/* The levels of its nodes and goals, and the check. */
#define AT_CONSTANT "(push 1)\n(declare-sort T 0)\n(declare-fun c () T)\n(assert c)\n"
#define AT_TWICE "(push 1)\n(declare-fun f () Bool)\n(assert f)\n(assert f)\n"
#define AT_LITERAL "(push 1)\n(declare-fun |l:T| () T)\n(assert |l:T|)\n"
#define OF_TRUE "(push 1)\n(push 1)\n(assert (not true))\n"
#define OF_OTHER "(push 1)\n(declare-fun d () Bool)\n(push 1)\n(assert (not d))\n"
#define CHECK "(check-sat)\n"
#define POP "(pop 1)\n"

#endif
