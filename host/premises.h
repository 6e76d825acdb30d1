/*
 * Whether the premises at a node contradict each other: whether `false` follows there. Then everything follows, and a goal that is proved
 * says nothing.
 */
#ifndef PREMISES_H
#define PREMISES_H

#include "prove.h"

enum premises { PREMISES_UNASKED, PREMISES_AGREE, PREMISES_CONTRADICT, PREMISES_UNKNOWN };

/* The most nodes that a book has. */
enum { PREMISES_MOST_NODES = 512 };

/* What is known so far, of node 0 too. */
struct premises_known {
    uint32_t false_term;
    enum premises at[PREMISES_MOST_NODES + 1];
};

/* False where the book has no term `false` that could be asked. */
bool premises_begin(struct premises_known *known, const struct bytes *book);

/* Asks at a node, if nobody has yet; `result` is what came of that, and is left alone where nothing was asked. */
enum premises premises_at(struct premises_known *known, struct prover *prover, uint32_t node, struct result *result);

#endif
