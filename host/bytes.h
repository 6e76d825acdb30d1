/* A row of bytes that grows. One that is all zero is empty. */
#ifndef BYTES_H
#define BYTES_H

#include <stdbool.h>
#include <stddef.h>
#include <stdint.h>

struct bytes {
    uint8_t *at;
    size_t length;
    size_t room;
};

/* Makes room for so many bytes in all; false where the memory does not suffice, and nothing is changed. */
bool bytes_reserve(struct bytes *bytes, size_t room);

/* Adds bytes at the end; false where the memory does not suffice, and nothing is changed. */
bool bytes_add(struct bytes *bytes, const void *from, size_t length);
bool bytes_add_text(struct bytes *bytes, const char *text);

/* Drops bytes from the front. */
void bytes_drop(struct bytes *bytes, size_t length);

void bytes_free(struct bytes *bytes);

#endif
