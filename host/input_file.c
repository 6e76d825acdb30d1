#include "input_file.h"

#include "complain.h"

#include <errno.h>
#include <stdio.h>
#include <string.h>

static bool read_all(FILE *file, size_t most, struct bytes *bytes) {
    uint8_t chunk[BUFSIZ];
    size_t length = sizeof chunk;
    while (length == sizeof chunk && bytes->length <= most) {
        length = fread(chunk, 1, sizeof chunk, file);
        if (!bytes_add(bytes, chunk, length)) {
            errno = ENOMEM;
            return false;
        }
    }
    return ferror(file) == 0;
}

static bool complain_of(const char *name, int why) {
    complain("%s: %s", name, strerror(why));
    return false;
}

bool input_file_read(const char *path, size_t most, struct bytes *bytes) {
    FILE *file = fopen(path, "rb");
    if (file == NULL) {
        return complain_of(path, errno);
    }
    bool is_whole = read_all(file, most, bytes);
    int why = errno;
    bool is_closed = fclose(file) == 0;
    return (is_whole && is_closed) || complain_of(path, is_whole ? errno : why);
}

bool input_is_standard(const char *path) {
    return strcmp(path, "-") == 0;
}

const char *input_name(const char *path) {
    return input_is_standard(path) ? "standard input" : path;
}

bool input_read(const char *path, size_t most, struct bytes *bytes) {
    if (!input_is_standard(path)) {
        return input_file_read(path, most, bytes);
    }
    return read_all(stdin, most, bytes) || complain_of(input_name(path), errno);
}
