/*
 * The sorts of a book's terms. The library writes terms as they are, and no solver finds every term that has none: to z3 (<= x) is true.
 * An operator that is not known here is not checked, and what it gives may have any sort.
 */
#ifndef SORTS_H
#define SORTS_H

#include "bytes.h"

/* Looks at all terms, axioms and nodes of a book that passes the book test; false where one is bad, with a sentence about the first. */
bool sorts_check(const struct bytes *book, struct bytes *complaint);

/* Whether a term of the book may be a premise or a goal: its sort is Bool, or may be any. */
bool sorts_is_truth(const struct bytes *book, uint32_t term);

#endif
