/* Numbers as books and lists of nodes have them: 32 bits, little-endian. */
#ifndef NUMBERS_H
#define NUMBERS_H

#include "bytes.h"

enum { NUMBER_SIZE = 4 };

uint32_t number_at(const uint8_t *bytes);

/* Adds a number at the end; false where the memory does not suffice, and nothing is changed. */
bool number_add(struct bytes *bytes, uint32_t number);

#endif
