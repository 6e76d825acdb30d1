#include "process.h"

#include "keeper.h"
#include "signals.h"

#include <errno.h>
#include <fcntl.h>
#include <signal.h>
#include <sys/resource.h>
#include <sys/wait.h>
#include <unistd.h>

/* The pipes of a new process; the first three have the numbers of the streams that they serve there. */
enum { IN = STDIN_FILENO, OUT = STDOUT_FILENO, ERR = STDERR_FILENO, ENDED, LIFE, PIPE_COUNT };
enum { READING = 0, WRITING = 1 };
static const int OURS[PIPE_COUNT] = {[IN] = WRITING, [OUT] = READING, [ERR] = READING, [ENDED] = READING, [LIFE] = WRITING};

struct pipes {
    int ends[PIPE_COUNT][2];
};

void process_close(int *pipe_end) {
    if (*pipe_end >= 0) {
        (void)close(*pipe_end); /* the descriptor is gone whatever close answers, and a pipe has nothing to lose */
        *pipe_end = -1;
    }
}

static void close_ours(struct pipes *pipes) {
    for (int use = 0; use < PIPE_COUNT; use++) {
        process_close(&pipes->ends[use][OURS[use]]);
    }
}

static void close_others(struct pipes *pipes) {
    for (int use = 0; use < PIPE_COUNT; use++) {
        process_close(&pipes->ends[use][1 - OURS[use]]);
    }
}

/* No other process is to inherit an end, and ours are not to block. */
static bool prepare_ends(const int *ends, int ours) {
    int flags = fcntl(ends[ours], F_GETFL);
    return fcntl(ends[READING], F_SETFD, FD_CLOEXEC) == 0 && fcntl(ends[WRITING], F_SETFD, FD_CLOEXEC) == 0 && flags >= 0 &&
           fcntl(ends[ours], F_SETFL, flags | O_NONBLOCK) == 0;
}

static bool open_pipes(struct pipes *pipes) {
    for (int use = 0; use < PIPE_COUNT; use++) {
        pipes->ends[use][READING] = -1;
        pipes->ends[use][WRITING] = -1;
    }
    for (int use = 0; use < PIPE_COUNT; use++) {
        if (pipe(pipes->ends[use]) != 0 || !prepare_ends(pipes->ends[use], OURS[use])) {
            int why = errno;
            close_ours(pipes);
            close_others(pipes);
            errno = why;
            return false;
        }
    }
    return true;
}

/* The new process: the keeper has only the other ends. */
static void keep(struct pipes *pipes, const char *const *command, uint64_t memory) {
    close_ours(pipes);
    const struct keeper_ends ends = {.streams = {pipes->ends[IN][READING], pipes->ends[OUT][WRITING], pipes->ends[ERR][WRITING]},
                                     .ended = pipes->ends[ENDED][WRITING],
                                     .life = pipes->ends[LIFE][READING]};
    keeper_run(&ends, command, memory);
}

/* Forks with the ending signals held back until the keeper is watched. */
static pid_t fork_watched(struct pipes *pipes, const char *const *command, uint64_t memory) {
    if (!signals_hold()) {
        return -1;
    }
    pid_t keeper = fork();
    int why = errno;
    if (keeper == 0) {
        keep(pipes, command, memory);
    }
    if (keeper > 0) {
        signals_watch(pipes->ends[LIFE][WRITING], keeper);
    }
    (void)signals_release(); /* the mask is one that the system gave */
    errno = why;
    return keeper;
}

bool process_start(struct process *process, const char *const *command, uint64_t memory) {
    struct pipes pipes;
    if (!open_pipes(&pipes)) {
        return false;
    }
    pid_t keeper = fork_watched(&pipes, command, memory);
    int why = errno;
    close_others(&pipes);
    if (keeper < 0) {
        close_ours(&pipes);
        errno = why;
        return false;
    }
    *process = (struct process){.keeper = keeper,
                                .in = pipes.ends[IN][WRITING],
                                .out = pipes.ends[OUT][READING],
                                .err = pipes.ends[ERR][READING],
                                .ended = pipes.ends[ENDED][READING],
                                .life = pipes.ends[LIFE][WRITING]};
    return true;
}

/* The keeper tells it in one piece. One that was ended itself tells nothing, and its solver was killed with it. */
bool process_has_ended(struct process *process, int *status) {
    if (!process->has_ended) {
        int told = 0;
        ssize_t length = read(process->ended, &told, sizeof told);
        process->has_ended = length >= 0;
        process->status = length == (ssize_t)sizeof told ? told : SIGKILL;
    }
    if (process->has_ended) {
        *status = process->status;
    }
    return process->has_ended;
}

/* A signal that comes meanwhile finds no pipe that it would close again, but a keeper that it can wait for too. */
static void end_life(struct process *process) {
    bool is_held = signals_hold();
    signals_watch(SIGNALS_NO_PIPE, process->keeper);
    process_close(&process->life);
    if (is_held) {
        (void)signals_release(); /* the mask is one that the system gave */
    }
}

int process_kill(struct process *process) {
    int status = SIGKILL;
    end_life(process);
    while (waitpid(process->keeper, NULL, 0) < 0 && errno == EINTR) {
    }
    signals_watch(SIGNALS_NO_PIPE, SIGNALS_NO_KEEPER);
    (void)process_has_ended(process, &status); /* the pipe has what the keeper told, or its end */
    return status;
}

void process_close_all(struct process *process) {
    process_close(&process->in);
    process_close(&process->out);
    process_close(&process->err);
    process_close(&process->ended);
}

uint64_t process_most_memory(void) {
    struct rlimit limits;
    if (getrlimit(RLIMIT_AS, &limits) != 0 || limits.rlim_max == RLIM_INFINITY) {
        return UINT64_MAX;
    }
    return (uint64_t)limits.rlim_max;
}
