#include "complain.h"

#include <stdarg.h>
#include <stdio.h>

static size_t line_at;

void complain_of_line(size_t line) {
    line_at = line;
}

/* Where standard error cannot be written nobody is left to be told; the exit status still says it. */
void complain(const char *format, ...) {
    va_list values;
    va_start(values, format);
    (void)fputs("leskofar: ", stderr);
    if (line_at > 0) {
        (void)fprintf(stderr, "line %zu: ", line_at);
    }
    (void)vfprintf(stderr, format, values);
    (void)fputs("\n", stderr);
    va_end(values);
}
