/*
 * A solver's process, in a group of its own, with a pipe for each of its three streams, and with a keeper, which ends it however this
 * program ends.
 */
#ifndef PROCESS_H
#define PROCESS_H

#include "launch.h"

#include <stdbool.h>
#include <stdint.h>
#include <sys/types.h>

/* The exit status of a solver that could not be started. */
enum { PROCESS_NOT_STARTED = LAUNCH_FAILED };

/* Our ends of the pipes, none of which blocks; -1 for one that is closed. */
struct process {
    pid_t keeper;
    int in;
    int out;
    int err;
    int ended; /* ready to be read once the solver has ended, and from then on */
    int life;
    bool has_ended; /* for process_has_ended, which reads it once */
    int status;
};

/*
 * Starts a command. `memory` is the most bytes of memory that it may have, 0 for no limit. False where no process can be made; errno says
 * why. A command that cannot be run gives a process that says so and ends with PROCESS_NOT_STARTED.
 */
bool process_start(struct process *process, const char *const *command, uint64_t memory);

/*
 * Whether the solver has ended by itself, and how, as waitpid has it; it never waits. What the solver has started may still hold its pipes,
 * but all that it wrote itself is in them.
 */
bool process_has_ended(struct process *process, int *status);

/*
 * Kills the solver with all that it has started, and waits until they are gone. Gives the solver's own status if it had ended by itself,
 * else that of SIGKILL. What it wrote can still be read.
 */
int process_kill(struct process *process);

/* Closes a pipe that is open. */
void process_close(int *pipe_end);

/* After process_kill. */
void process_close_all(struct process *process);

/* The most bytes of memory that the system lets a solver have; UINT64_MAX where there is no limit. */
uint64_t process_most_memory(void);

#endif
