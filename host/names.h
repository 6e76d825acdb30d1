/*
 * The names of a book, as a solver will read them. The library sends those of types, constants and functions as symbols and literals
 * between bars, and refuses a book where it cannot; operators it sends as they are. So an operator that is more than one token, or a name
 * that is also something else's, can change what the solver is asked. The traces' names are not sent, and not looked at.
 */
#ifndef NAMES_H
#define NAMES_H

#include "bytes.h"

/* Looks at all names of a book that passes the book test; false where one is bad, with a sentence about the first such one. */
bool names_check(const struct bytes *book, struct bytes *complaint);

/*
 * The same for what z3 alone reads otherwise. It takes some of SMT-LIB's general reserved words for its own even between bars, and the
 * worst of them in silence: where a function is called `!`, (|!| 1) is 1 to it, and a wrong goal may be proved.
 */
bool names_check_for_z3(const struct bytes *book, struct bytes *complaint);

#endif
