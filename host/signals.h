/*
 * Signals that end the program: no solver is left behind. One thread works, and takes these signals; every other one holds them back for
 * good, so that what is changed while they are held back is never seen half changed.
 */
#ifndef SIGNALS_H
#define SIGNALS_H

#include <stdbool.h>
#include <sys/types.h>

/* At the program's begin. A write to a pipe that nobody reads, or beyond a file's limit, then fails, and does not end the program. */
bool signals_prepare(void);

/* The calling thread holds the signals back between these two. False where the system refuses; errno says why. */
bool signals_hold(void);
bool signals_release(void);

/* In a new process, before it becomes the solver: as if nothing had been prepared. */
bool signals_forget(void);

/* For signals_watch: no pipe, no process. */
enum { SIGNALS_NO_PIPE = -1, SIGNALS_NO_KEEPER = 0 };

/*
 * What such a signal does before it ends the program: it closes the life pipe of a keeper, and waits for the keeper. While the pipe is
 * opened or closed, and until this is called, the signals are to be held back.
 */
void signals_watch(int life, pid_t keeper);

#endif
