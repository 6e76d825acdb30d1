/*
 * The lines of a script of another writer, counted from 1. Only for what is said of it: whether a script is taken is the library's to
 * decide.
 */
#ifndef SCRIPT_LINES_H
#define SCRIPT_LINES_H

#include "bytes.h"

enum line_fault {
    LINE_GOOD,
    LINE_FOREIGN, /* it is no command of ours */
    LINE_POPS,    /* it pops the first level */
    LINE_UNENDED  /* it has no line end */
};

/* What is wrong with the first line that has a fault, and its number. */
enum line_fault script_first_fault(const struct bytes *script, size_t *number);

/* The check-sats of a script without faults: how many there are, and the line of one of them, counted from 1; 0 where it is not there. */
size_t script_check_count(const struct bytes *script);
size_t script_check_line(const struct bytes *script, size_t check);

#endif
