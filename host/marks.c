#include "marks.h"

#include <inttypes.h>
#include <stddef.h>
#include <stdio.h>
#include <sys/random.h>

bool marks_draw(struct marks *marks) {
    marks->count = 0;
    return getentropy(marks->random, sizeof marks->random) == 0;
}

/* The random bits in two halves, as snprintf takes them. */
static uint64_t half(const uint8_t *bytes) {
    uint64_t value = 0;
    for (size_t i = 0; i < MARKS_RANDOM_BYTES / 2; i++) {
        value = value << 8 | bytes[i];
    }
    return value;
}

bool marks_next(struct marks *marks, char mark[MARK_MOST]) {
    marks->count++;
    int length = snprintf(mark, MARK_MOST, "leskofar-%016" PRIx64 "%016" PRIx64 "-%" PRIu64, half(marks->random),
                          half(marks->random + MARKS_RANDOM_BYTES / 2), marks->count);
    return length > 0 && length < MARK_MOST;
}
