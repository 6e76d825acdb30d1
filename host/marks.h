/*
 * Marks: words that the solver is told to echo, by which its answers are known for their own. No name in a book can hold one: each has
 * 128 random bits, drawn anew for every solver, and a number that no other mark of that solver has.
 */
#ifndef MARKS_H
#define MARKS_H

#include <stdbool.h>
#include <stdint.h>

enum { MARKS_RANDOM_BYTES = 16, MARK_MOST = 72 };

struct marks {
    uint8_t random[MARKS_RANDOM_BYTES];
    uint64_t count;
};

/* False where the system gives no random bits: then no solver may be asked. */
bool marks_draw(struct marks *marks);

/* The next mark; MARK_MOST bytes are enough for it and the zero behind it. False where it cannot be written, which never happens. */
bool marks_next(struct marks *marks, char mark[MARK_MOST]);

#endif
