/* Files that are written anew without touching what stands there before. */
#ifndef NEW_FILE_H
#define NEW_FILE_H

#include <stdbool.h>
#include <stdint.h>
#include <stdio.h>

/* Whether two paths lead to one file, by device and number; false where one of them leads nowhere. */
bool new_file_is(const char *path, const char *other);

/*
 * A new file beside the one that the path leads to, which is then put in its place; whoever has the old one open keeps it. What is no
 * plain file, such as a device or a pipe, is written as it is. NULL where that fails; errno says why.
 */
FILE *new_file_open(const char *path);

/*
 * Writes a file whole or not at all: the new one takes the other's place only once all of it is written. What is no plain file is
 * written as it is. 0, or the error's number.
 */
int new_file_write(const char *path, const uint8_t *bytes, size_t length);

#endif
