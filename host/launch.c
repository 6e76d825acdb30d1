#include "launch.h"

#include "signals.h"

#include <errno.h>
#include <signal.h>
#include <stdbool.h>
#include <stdio.h>
#include <string.h>
#include <sys/resource.h>
#include <unistd.h>
#ifdef __linux__
#include <sys/prctl.h>
#endif

static bool limit(int resource, rlim_t most) {
    const struct rlimit limits = {.rlim_cur = most, .rlim_max = most};
    return setrlimit(resource, &limits) == 0;
}

/* The signal is only sent for a parent that ends from now on: one that has ended before is no longer the parent. */
static bool dies_with(pid_t parent) {
#ifdef __linux__
    if (prctl(PR_SET_PDEATHSIG, (unsigned long)SIGKILL) != 0) {
        return false;
    }
#endif
    if (getppid() != parent) {
        _exit(LAUNCH_FAILED);
    }
    return true;
}

static bool become_solver(const int streams[LAUNCH_STREAMS], pid_t parent, uint64_t memory) {
    for (int stream = 0; stream < LAUNCH_STREAMS; stream++) {
        if (dup2(streams[stream], stream) < 0) {
            return false;
        }
    }
    return setpgid(0, 0) == 0 && dies_with(parent) && limit(RLIMIT_CORE, 0) && (memory == 0 || limit(RLIMIT_AS, (rlim_t)memory)) &&
           signals_forget();
}

/* Where it cannot be written, the status still says it. */
void launch_complain(int stream, const char *const *command) {
    (void)dprintf(stream, "%s: %s\n", command[0], strerror(errno));
}

void launch(const int streams[LAUNCH_STREAMS], pid_t parent, const char *const *command, uint64_t memory) {
    if (become_solver(streams, parent, memory)) {
        (void)execvp(command[0], (char *const *)command); /* it only returns where it fails */
    }
    launch_complain(STDERR_FILENO, command);
    _exit(LAUNCH_FAILED);
}
