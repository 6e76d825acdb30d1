/*
 * Ends the host by signals at random moments, and sees that no process is left.
 *
 *   kills MOMENTS LONGEST SEED SOLVER.. -- HOST WORD..
 *
 * Each of the signals comes at MOMENTS moments, up to LONGEST milliseconds behind the host's start, with one solver after the other; to the
 * host alone, or to its group, as a terminal does it. Whoever loses its parent becomes a child of this program: it waits until it has none,
 * and names and kills those that do not end.
 */
#define _DEFAULT_SOURCE
#include "processes.h"

#include <errno.h>
#include <fcntl.h>
#include <inttypes.h>
#include <signal.h>
#include <stdbool.h>
#include <stdlib.h>
#include <sys/prctl.h>
#include <sys/wait.h>
#include <time.h>
#include <unistd.h>

enum { AT_ONCE = 4, ALL_GONE_AFTER = 5000, MOST_WORDS = 64, NOT_STARTED = 127, FIRST_OPERAND = 4 };
enum { MILLISECOND = 1000000, MICROSECOND = 1000, PER_SECOND = 1000 };

/* Half of all moments are in this part of the time, in which the solver is started. */
enum { EARLY_PART = 8 };

/* At least one in so many moments must have found a solver, else nothing is shown. */
enum { LEAST_PART = 5 };

static const int SIGNALS[] = {SIGINT, SIGTERM, SIGHUP, SIGQUIT, SIGUSR1, SIGALRM, SIGPIPE, SIGKILL};
enum { SIGNAL_COUNT = sizeof SIGNALS / sizeof SIGNALS[0] };

/* What is to be done: the host's words end in `--solver` and the solver. */
struct work {
    unsigned moments;
    unsigned longest;
    uint64_t seed;
    char **solvers;
    size_t solver_count;
    char *host[MOST_WORDS];
    size_t words;
};

struct tally {
    unsigned passed;
    unsigned failed;
    unsigned found; /* how often a solver was there */
    unsigned ended; /* how often the signal ended the host */
};

static void stop_if(bool fault, const char *what) {
    if (fault) {
        fprintf(stderr, "kills: cannot %s\n", what);
        exit(EXIT_FAILURE);
    }
}

/* Marsaglia's xorshift. */
static uint64_t random_number(uint64_t *state) {
    *state ^= *state << 13;
    *state ^= *state >> 7;
    *state ^= *state << 17;
    return *state;
}

static void rest(long nanoseconds) {
    struct timespec time = {nanoseconds / (PER_SECOND * (long)MILLISECOND), nanoseconds % (PER_SECOND * (long)MILLISECOND)};
    while (nanosleep(&time, &time) != 0 && errno == EINTR) {
    }
}

static int64_t now(void) {
    struct timespec time;
    stop_if(clock_gettime(CLOCK_MONOTONIC, &time) != 0, "tell the time");
    return (int64_t)time.tv_sec * PER_SECOND + time.tv_nsec / MILLISECOND;
}

static pid_t start_host(char *const *host) {
    pid_t pid = fork();
    stop_if(pid < 0, "start a process");
    (void)setpgid(pid, pid); /* both do it, and one of both is first */
    if (pid == 0) {
        int nowhere = open("/dev/null", O_RDWR);
        bool ready = nowhere >= 0;
        for (int stream = 0; stream <= STDERR_FILENO; stream++) {
            ready = ready && dup2(nowhere, stream) == stream;
        }
        if (ready) {
            execvp(host[0], host);
        }
        _exit(NOT_STARTED);
    }
    return pid;
}

/* Waits for the host, or for any other child; false where it does not end before the deadline. */
static bool is_gone(pid_t pid, int *status, int64_t deadline) {
    pid_t ended = waitpid(pid, status, WNOHANG);
    while (ended == 0 && now() <= deadline) {
        rest(MILLISECOND / 4);
        ended = waitpid(pid, status, WNOHANG);
    }
    return ended != 0;
}

/* Waits until no child is left; says what is wrong, or NULL. Behind a host that could do so itself nobody is to be waited for. */
static const char *all_gone(pid_t host, int signal, int *status) {
    int64_t deadline = now() + ALL_GONE_AFTER;
    int other = 0;
    if (!is_gone(host, status, deadline)) {
        return "the host goes on";
    }
    bool nobody = waitpid(-1, NULL, WNOHANG) < 0;
    if (!nobody && signal != SIGKILL) {
        return "processes are left when the host has ended";
    }
    while (!nobody) {
        if (!is_gone(-1, &other, deadline)) {
            return "processes are left";
        }
        nobody = waitpid(-1, NULL, WNOHANG) < 0;
    }
    return NULL;
}

/* Names who is left, and kills them, and those whom they leave. */
static void clear(void) {
    static struct processes all;
    while (waitpid(-1, NULL, WNOHANG) >= 0) {
        read_processes(&all);
        for (size_t i = 0; i < all.count; i++) {
            if (all.at[i].parent == getpid()) {
                printf("  left: %d %s\n", (int)all.at[i].pid, all.at[i].name);
                (void)kill(all.at[i].pid, SIGKILL); /* it may have ended by now */
            }
        }
        rest(MILLISECOND);
    }
}

/* The host ended by the signal, or before it; one that ignores SIGPIPE is ended by SIGTERM, and one that has just begun does not yet. */
static bool is_right_end(int signal, int status) {
    if (WIFEXITED(status)) {
        return WEXITSTATUS(status) != NOT_STARTED;
    }
    return WTERMSIG(status) == signal || (signal == SIGPIPE && WTERMSIG(status) == SIGTERM);
}

/* A host, and its end at a moment, in nanoseconds. */
static void try_one(const struct work *work, int signal, long moment, bool to_group, struct tally *tally) {
    int status = 0;
    pid_t pid = start_host(work->host);
    pid_t whom = to_group ? -pid : pid;
    rest(moment);
    tally->found += has_solver(pid);
    stop_if(kill(whom, signal) != 0, "send a signal"); /* nobody has waited for the host */
    if (signal == SIGPIPE) {
        rest(MILLISECOND);
        stop_if(kill(whom, SIGTERM) != 0, "send a signal");
    }
    const char *wrong = all_gone(pid, signal, &status);
    wrong = wrong == NULL && !is_right_end(signal, status) ? "another end" : wrong;
    if (wrong != NULL) {
        printf("FAILED: signal %d to %s after %ld microseconds, %s: %s, status %x\n", signal, to_group ? "all" : "one",
               moment / MICROSECOND, work->host[work->words], wrong, (unsigned)status);
    }
    tally->passed += wrong == NULL;
    tally->failed += wrong != NULL;
    tally->ended += WIFSIGNALED(status);
    clear();
}

/* Every AT_ONCE-th moment, from one on. */
static struct tally try_share(struct work *work, unsigned first) {
    struct tally tally = {0};
    uint64_t state = work->seed * AT_ONCE + first + 1;
    stop_if(prctl(PR_SET_CHILD_SUBREAPER, 1UL) != 0, "become the parent of orphans");
    for (unsigned i = first; i < work->moments * SIGNAL_COUNT; i += AT_ONCE) {
        bool is_early = random_number(&state) % 2 == 0;
        uint64_t longest = (uint64_t)work->longest * MILLISECOND / (is_early ? EARLY_PART : 1);
        long moment = (long)(random_number(&state) % longest);
        /* The signals take turns, and the solvers behind them. */
        work->host[work->words] = work->solvers[i / SIGNAL_COUNT % work->solver_count];
        try_one(work, SIGNALS[i % SIGNAL_COUNT], moment, random_number(&state) % 2 == 0, &tally);
    }
    return tally;
}

/* Several at once, each by a process of its own, which is the parent of its own orphans alone. */
static void start_share(struct work *work, unsigned first, int results) {
    pid_t pid = fork();
    stop_if(pid < 0, "start a process");
    if (pid == 0) {
        struct tally tally = try_share(work, first);
        stop_if(fflush(stdout) != 0 || write(results, &tally, sizeof tally) != (ssize_t)sizeof tally, "tell results");
        _exit(EXIT_SUCCESS);
    }
}

static struct tally try_all(struct work *work) {
    int results[2];
    struct tally all = {0};
    struct tally one;
    stop_if(pipe(results) != 0, "make a pipe");
    stop_if(fcntl(results[0], F_SETFD, FD_CLOEXEC) != 0 || fcntl(results[1], F_SETFD, FD_CLOEXEC) != 0, "prepare a pipe");
    for (unsigned first = 0; first < AT_ONCE; first++) {
        start_share(work, first, results[1]);
    }
    stop_if(close(results[1]) != 0, "close a pipe");
    for (unsigned first = 0; first < AT_ONCE; first++) {
        bool is_told = read(results[0], &one, sizeof one) == (ssize_t)sizeof one;
        all.failed += is_told ? one.failed : 1;
        all.passed += is_told ? one.passed : 0;
        all.found += is_told ? one.found : 0;
        all.ended += is_told ? one.ended : 0;
    }
    while (wait(NULL) > 0) {
    }
    return all;
}

static struct work read_work(int count, char **arguments) {
    struct work work = {0};
    stop_if(count < FIRST_OPERAND, "go on: kills MOMENTS LONGEST SEED SOLVER.. -- HOST WORD..");
    work.moments = (unsigned)strtoul(arguments[1], NULL, 10);
    work.longest = (unsigned)strtoul(arguments[2], NULL, 10);
    work.seed = strtoul(arguments[3], NULL, 10);
    work.solvers = arguments + FIRST_OPERAND;
    int at = FIRST_OPERAND;
    while (at < count && strcmp(arguments[at], "--") != 0) {
        at++;
    }
    work.solver_count = (size_t)(at - FIRST_OPERAND);
    for (at++; at < count && work.words < MOST_WORDS - 3; at++) {
        work.host[work.words++] = arguments[at];
    }
    stop_if(work.solver_count == 0 || work.words == 0 || at < count || work.longest == 0, "go on without solvers, host and time");
    work.host[work.words++] = "--solver";
    return work;
}

/* A shell has its background processes ignore some signals. Hosts begin with none ignored, however early theirs comes. */
static void ignore_none(void) {
    for (size_t i = 0; i < SIGNAL_COUNT; i++) {
        stop_if(SIGNALS[i] != SIGKILL && signal(SIGNALS[i], SIG_DFL) == SIG_ERR, "have signals as they are at first");
    }
}

int main(int count, char **arguments) {
    ignore_none();
    struct work work = read_work(count, arguments);
    struct tally all = try_all(&work);
    unsigned moments = work.moments * SIGNAL_COUNT;
    printf("%u moments; a solver was there at %u; signals ended the host at %u\n", moments, all.found, all.ended);
    if (all.found < moments / LEAST_PART) {
        printf("FAILED: a solver was there too seldom\n");
        all.failed++;
    }
    printf("%u passed, %u failed\n", all.passed, all.failed);
    return all.failed != 0;
}
