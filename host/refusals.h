/* The refusals in words. */
#ifndef REFUSALS_H
#define REFUSALS_H

#include <stdint.h>

const char *refusal_meaning(uint32_t refusal);

/* What is said beside the number where a growth is refused, and the book itself is good: whether the new book would be bad. */
const char *refusal_place(uint32_t refusal);

#endif
