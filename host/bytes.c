#include "bytes.h"

#include <stdlib.h>
#include <string.h>

bool bytes_reserve(struct bytes *bytes, size_t room) {
    if (room <= bytes->room) {
        return true;
    }
    uint8_t *at = realloc(bytes->at, room);
    if (at == NULL) {
        return false;
    }
    bytes->at = at;
    bytes->room = room;
    return true;
}

/* Doubles the room where it must grow, so that many small additions cost no more than their bytes. */
static bool grow(struct bytes *bytes, size_t length) {
    if (length <= bytes->room - bytes->length) {
        return true;
    }
    if (length > SIZE_MAX / 2 - bytes->length) {
        return false;
    }
    return bytes_reserve(bytes, 2 * (bytes->length + length));
}

bool bytes_add(struct bytes *bytes, const void *from, size_t length) {
    if (length == 0) {
        return true;
    }
    if (!grow(bytes, length)) {
        return false;
    }
    memcpy(bytes->at + bytes->length, from, length);
    bytes->length += length;
    return true;
}

bool bytes_add_text(struct bytes *bytes, const char *text) {
    return bytes_add(bytes, text, strlen(text));
}

void bytes_drop(struct bytes *bytes, size_t length) {
    if (length == 0) {
        return;
    }
    bytes->length -= length;
    memmove(bytes->at, bytes->at + length, bytes->length);
}

void bytes_free(struct bytes *bytes) {
    free(bytes->at);
    *bytes = (struct bytes){0};
}
