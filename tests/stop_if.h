/* Ends a test that cannot be run at all, such as for want of memory. */
#ifndef STOP_IF_H
#define STOP_IF_H

#include <stdio.h>
#include <stdlib.h>

static inline void stop_if(int fault, const char *what) {
    if (fault) {
        fprintf(stderr, "cannot %s\n", what);
        exit(EXIT_FAILURE);
    }
}

#endif
