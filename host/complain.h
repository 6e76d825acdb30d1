/* What goes to standard error, and the exit statuses. */
#ifndef COMPLAIN_H
#define COMPLAIN_H

#include <stddef.h>

/* Of several the largest is the program's. Each command has its own meaning of 1. */
enum status {
    STATUS_DONE = 0,
    STATUS_NOT_PROVED = 1,
    STATUS_NOT_REACHED = 1,
    STATUS_REJECTED = 1,
    STATUS_REFUSED = 2,
    STATUS_SOLVER_FAILED = 3
};

/* Prints a line, as printf does, with the program's name before it. */
void complain(const char *format, ...);

/* From now on complaints are about this line of standard input, and say its number, counted from 1; 0 for no line. */
void complain_of_line(size_t line);

#endif
