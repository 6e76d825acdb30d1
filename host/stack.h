/* The program's stack: the library's calls have what they need, whatever limit the program was started with. */
#ifndef STACK_H
#define STACK_H

#include "complain.h"

/* Does the work in a thread of its own with stack enough, which takes the signals, and answers its status. */
enum status stack_run(enum status (*work)(int count, char **arguments), int count, char **arguments);

#endif
