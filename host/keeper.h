/*
 * The keeper, a process between this program and its solver: however this program ends, the keeper sees it, and ends the solver with all
 * that the solver has started.
 */
#ifndef KEEPER_H
#define KEEPER_H

#include "launch.h"

/* The ends of pipes that the keeper is given. */
struct keeper_ends {
    int streams[LAUNCH_STREAMS]; /* the solver's */
    int ended;                   /* where it tells how the solver has ended, an int as waitpid has it */
    int life;                    /* this pipe ends when the solver is to end; the other end has nobody but this program */
};

/* In a new process, with the ending signals held back: starts the solver, and ends when it and all of its processes have. */
_Noreturn void keeper_run(const struct keeper_ends *ends, const char *const *command, uint64_t memory);

#endif
