/* Counts the tests of the C interface. */
#ifndef EXPECT_H
#define EXPECT_H

#include <stddef.h>
#include <stdint.h>
#include <stdio.h>

static int passed;
static int failed;

static inline void expect(const char *name, int holds) {
    if (holds) {
        passed++;
    } else {
        failed++;
        printf("FAILED: %s\n", name);
    }
}

static inline int all_are(const uint8_t *bytes, size_t len, uint8_t value) {
    for (size_t i = 0; i < len; i++) {
        if (bytes[i] != value) {
            return 0;
        }
    }
    return 1;
}

/* The closing line, and the status to end with. */
static inline int close_tests(void) {
    printf("%d passed, %d failed\n", passed, failed);
    return failed != 0;
}

#endif
