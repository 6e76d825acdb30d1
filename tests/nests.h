/* Writes books as deep as they can be: terms in each other in each way that costs calls, in a node, in axioms; and nodes below each other. */
#ifndef NESTS_H
#define NESTS_H

#include "made_book.h"

enum {
    MOST_FUNCTIONS = 128,
    MOST_AXIOMS = 128,
    MOST_PATTERNS = 128,
    MOST_TERMS = 1024,
    MOST_LISTS = 2048,
    MOST_DEPTH = 400,
    FUNCTION_FIELDS = 6,
    AXIOM_FIELDS = 3,
    TERM_FIELDS = 7,
    CONTEXT_FIELDS = 3,
    INTEGER = 1,
    ID = 3,
    BUILT_IN = 4,
    FUNCTION = 5,
    IF_THEN_ELSE = 6,
    LET_EXPR = 7,
    QUANTIFIER_EXPR = 8,
    INT = 1
};

/*
 * What all nests share: constant 0, name 0, function 0, and list entries 0 and 1, which stand for that constant, for the empty
 * pattern 0, and for function and axiom 0.
 */
enum { ONE = 0, ONES = 1, TWICE = 2 };

struct nest {
    uint32_t functions[MOST_FUNCTIONS][FUNCTION_FIELDS];
    size_t function_count;
    uint32_t axioms[MOST_AXIOMS][AXIOM_FIELDS];
    size_t axiom_count;
    uint32_t patterns[MOST_PATTERNS][2];
    size_t pattern_count;
    uint32_t terms[MOST_TERMS][TERM_FIELDS];
    size_t term_count;
    uint32_t contexts[MOST_DEPTH][CONTEXT_FIELDS];
    size_t context_count;
    uint32_t lists[MOST_LISTS];
    size_t list_count;
};

static inline void begin_nest(struct nest *n) {
    memset(n, 0, sizeof *n);
    n->function_count = ONES;
    n->functions[ONE][1] = INT;
    n->pattern_count = ONES;
    n->list_count = TWICE;
}

static inline uint32_t add_term(struct nest *n, const uint32_t fields[TERM_FIELDS]) {
    memcpy(n->terms[n->term_count], fields, sizeof n->terms[0]);
    return (uint32_t)n->term_count++;
}

static inline uint32_t leaf(struct nest *n) {
    return add_term(n, (const uint32_t[TERM_FIELDS]){ID, ONE});
}

/* It is printed as a row of its own, and as long as a number can be. */
static inline uint32_t least_number(struct nest *n) {
    return add_term(n, (const uint32_t[TERM_FIELDS]){INTEGER, 0, (uint32_t)INT32_MIN});
}

static inline uint32_t add_entry(struct nest *n, uint32_t entry) {
    n->lists[n->list_count] = entry;
    return (uint32_t)n->list_count++;
}

static inline uint32_t list_of_two(struct nest *n, uint32_t first, uint32_t second) {
    uint32_t start = add_entry(n, first);
    (void)add_entry(n, second);
    return start;
}

/* Each step puts a term around another one. */
static inline uint32_t only_argument(struct nest *n, uint32_t inner) {
    return add_term(n, (const uint32_t[TERM_FIELDS]){BUILT_IN, ONE, add_entry(n, inner), 1});
}

static inline uint32_t function_argument(struct nest *n, uint32_t inner) {
    return add_term(n, (const uint32_t[TERM_FIELDS]){FUNCTION, ONE, add_entry(n, inner), 1});
}

/* From here on, the inner term is not the last part of its list. */
static inline uint32_t first_argument(struct nest *n, uint32_t inner) {
    uint32_t start = list_of_two(n, inner, leaf(n));
    return add_term(n, (const uint32_t[TERM_FIELDS]){BUILT_IN, ONE, start, 2});
}

static inline uint32_t guard(struct nest *n, uint32_t inner) {
    uint32_t thn = leaf(n);
    return add_term(n, (const uint32_t[TERM_FIELDS]){IF_THEN_ELSE, inner, thn, leaf(n)});
}

static inline uint32_t right_side(struct nest *n, uint32_t inner) {
    return add_term(n, (const uint32_t[TERM_FIELDS]){LET_EXPR, ONE, inner, leaf(n)});
}

/* The body of a quantifier stands before its patterns, and an empty pattern takes no term. */
static inline uint32_t quantifier_body(struct nest *n, uint32_t inner) {
    return add_term(n, (const uint32_t[TERM_FIELDS]){QUANTIFIER_EXPR, 1, ONE, ONES, ONE, ONES, inner});
}

/* The first of several variables is not the last part of their list. */
static inline uint32_t body_of_two(struct nest *n, uint32_t inner) {
    return add_term(n, (const uint32_t[TERM_FIELDS]){QUANTIFIER_EXPR, 1, ONE, TWICE, ONE, ONES, inner});
}

/* The first term of the first of two patterns is two lists deep, as long as there are patterns. */
static inline uint32_t pattern_term(struct nest *n, uint32_t inner) {
    if (n->pattern_count == MOST_PATTERNS) {
        return quantifier_body(n, inner);
    }
    uint32_t *pattern = n->patterns[n->pattern_count];
    pattern[0] = list_of_two(n, inner, leaf(n));
    pattern[1] = 2;
    uint32_t start = list_of_two(n, (uint32_t)n->pattern_count++, ONE);
    return add_term(n, (const uint32_t[TERM_FIELDS]){QUANTIFIER_EXPR, 1, ONE, ONES, start, 2, leaf(n)});
}

static const struct shape {
    const char *name;
    uint32_t (*step)(struct nest *, uint32_t);
    size_t terms; /* that a step adds, at most */
} shapes[] = {
    {"only arguments", only_argument, 1},
    {"function's arguments", function_argument, 1},
    {"first arguments", first_argument, 2},
    {"guards", guard, 3},
    {"right sides", right_side, 2},
    {"quantifier bodies", quantifier_body, 1},
    {"bodies of two variables", body_of_two, 1},
    {"pattern terms and bodies", pattern_term, 3},
};

/* Puts terms of a shape around another one, as long as there are so many terms at most. */
static inline uint32_t nest_around(struct nest *n, const struct shape *s, uint32_t inner, size_t most) {
    while (n->term_count + s->terms <= most) {
        inner = s->step(n, inner);
    }
    return inner;
}

static inline void add_node(struct nest *n, uint32_t parent, uint32_t term) {
    uint32_t *context = n->contexts[n->context_count++];
    context[0] = parent;
    context[1] = term;
    context[2] = ONE + 1;
}

/* The length of a book, its last node and its last term. */
struct written {
    size_t len;
    uint32_t node;
    uint32_t term;
};

static inline struct written write_out(uint8_t *book, const struct nest *n) {
    static const uint32_t names[] = {0, 1};
    static const uint32_t constants[] = {ONE, INT};
    const struct section sections[SECTIONS - 1] = {
        {names, 1, 2},
        {NULL, 0, 0},
        {constants, 1, 2},
        {n->functions[0], n->function_count, FUNCTION_FIELDS},
        {n->axioms[0], n->axiom_count, AXIOM_FIELDS},
        {n->patterns[0], n->pattern_count, 2},
        {n->terms[0], n->term_count, TERM_FIELDS},
        {n->contexts[0], n->context_count, CONTEXT_FIELDS},
        {n->lists, n->list_count, 1},
    };
    return (struct written){write_book(book, "v", sections), (uint32_t)n->context_count, (uint32_t)n->term_count - 1};
}

/* A nest of one shape around an innermost term, in a node: the last term has all the others in it. */
static inline struct written write_nest(uint8_t *book, const struct shape *s, uint32_t (*innermost)(struct nest *)) {
    static struct nest n;
    begin_nest(&n);
    add_node(&n, 0, nest_around(&n, s, innermost(&n), MOST_TERMS));
    return write_out(book, &n);
}

/* So many functions, each explained by an axiom with a nest of one shape, in which the next one is applied, of so many terms in all. */
static inline void add_axioms(struct nest *n, const struct shape *s, size_t count, size_t most) {
    const size_t share = most / count;
    n->function_count = count;
    n->axiom_count = count;
    for (uint32_t i = 0; i < count; i++) {
        uint32_t next = (uint32_t)((i + 1) % count);
        uint32_t applied = add_term(n, (const uint32_t[TERM_FIELDS]){FUNCTION, next});
        uint32_t start = add_entry(n, i);
        const uint32_t function[FUNCTION_FIELDS] = {ONE, INT, ONE, 0, start, 1};
        /* The first axiom has what is left over. */
        const size_t all = most - share * (count - 1 - i);
        const uint32_t axiom[AXIOM_FIELDS] = {nest_around(n, s, applied, all), start, 1};
        memcpy(n->functions[i], function, sizeof function);
        memcpy(n->axioms[i], axiom, sizeof axiom);
    }
}

/* Such axioms, and a node that applies the first function. */
static inline struct written write_axioms(uint8_t *book, const struct shape *s, size_t count) {
    static struct nest n;
    begin_nest(&n);
    add_axioms(&n, s, count, MOST_TERMS - 1);
    add_node(&n, 0, add_term(&n, (const uint32_t[TERM_FIELDS]){FUNCTION, ONE}));
    return write_out(book, &n);
}

/* One such axiom that has all terms. As the goal it is walked twice at once: the function in it sends the axiom. */
static inline struct written write_own_axiom(uint8_t *book, const struct shape *s) {
    static struct nest n;
    begin_nest(&n);
    add_axioms(&n, s, ONES, MOST_TERMS);
    return write_out(book, &n);
}

/* Nodes below each other, each with a small term. */
static inline void add_chain(struct nest *n, uint32_t depth) {
    for (uint32_t node = 0; node < depth; node++) {
        add_node(n, node, leaf(n));
    }
}

/* Such a chain, as deep as it may be. */
static inline struct written write_chain(uint8_t *book) {
    static struct nest n;
    begin_nest(&n);
    add_chain(&n, MOST_DEPTH);
    return write_out(book, &n);
}

/* A chain whose last node has a nest of the terms that are left. */
static inline struct written write_deep_nest(uint8_t *book, const struct shape *s, uint32_t depth) {
    static struct nest n;
    begin_nest(&n);
    add_chain(&n, depth - 1);
    add_node(&n, depth - 1, nest_around(&n, s, leaf(&n), MOST_TERMS));
    return write_out(book, &n);
}

/* A chain, and an axiom of the terms that are left, which as the goal at the last node is walked twice at once. */
static inline struct written write_deep_axiom(uint8_t *book, const struct shape *s, uint32_t depth) {
    static struct nest n;
    begin_nest(&n);
    add_chain(&n, depth);
    add_axioms(&n, s, ONES, MOST_TERMS);
    return write_out(book, &n);
}

#endif
