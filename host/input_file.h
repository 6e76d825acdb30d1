/* Reads files, as far as they can be of use. */
#ifndef INPUT_FILE_H
#define INPUT_FILE_H

#include "bytes.h"

/* Reads a file to its end, or until it has more than so many bytes. False after a complaint. */
bool input_file_read(const char *path, size_t most, struct bytes *bytes);

/* Where a command lets `-` stand for standard input: whether a path does, what it is called in a complaint, and what it has. */
bool input_is_standard(const char *path);
const char *input_name(const char *path);
bool input_read(const char *path, size_t most, struct bytes *bytes);

#endif
