#include "keeper.h"

#include <dirent.h>
#include <errno.h>
#include <fcntl.h>
#include <signal.h>
#include <stdbool.h>
#include <stdlib.h>
#include <sys/select.h>
#include <sys/wait.h>
#include <unistd.h>
#ifdef __linux__
#include <sys/prctl.h>
#endif

/* The keeper has its two pipes in the place of standard streams: so it keeps no stream of the program open, and pselect takes them. */
enum { LIFE = STDIN_FILENO, ENDED = STDOUT_FILENO };

/* Those whom a killed process leaves are looked for behind so many waits at most: they may leave others as fast as they are waited for. */
enum { REAPED_AT_ONCE = 1000 };

/* How waitpid puts an exit status, and a memory image that was written. */
enum { EXIT_SHIFT = 8, EXIT_MOST = 0xff, HAS_IMAGE = 0x80 };

struct keeping {
    pid_t solver;
    bool has_told; /* how the solver ended */
};

static void tell(struct keeping *keeping, int status) {
    if (!keeping->has_told) {
        ssize_t written = write(ENDED, &status, sizeof status);
        (void)written; /* it only fails where nobody is left to be told */
        (void)close(ENDED);
        keeping->has_told = true;
    }
}

/* As waitpid has it; that would free the process's number. */
static int status_of(const siginfo_t *info) {
    if (info->si_code == CLD_EXITED) {
        return (info->si_status & EXIT_MOST) << EXIT_SHIFT;
    }
    return info->si_status | (info->si_code == CLD_DUMPED ? HAS_IMAGE : 0);
}

/*
 * Looks for one that has ended; false where there is none. The solver is not waited for: as long as it is not, neither its number nor its
 * group's is given to another process. Others are orphans that the keeper has got.
 */
static bool look(struct keeping *keeping) {
    siginfo_t info = {0};
    if (keeping->has_told || waitid(P_ALL, 0, &info, WEXITED | WNOHANG | WNOWAIT) != 0 || info.si_pid == 0) {
        return false;
    }
    if (info.si_pid == keeping->solver) {
        tell(keeping, status_of(&info));
    } else {
        (void)waitpid(info.si_pid, NULL, 0); /* it has ended, and nobody else waits for it */
    }
    return true;
}

/* Whether a number is that of a child that nobody has waited for. Nobody but the keeper does: until then the number is the child's. */
static bool is_child(pid_t pid) {
    siginfo_t info;
    return waitid(P_PID, (id_t)pid, &info, WEXITED | WNOHANG | WNOWAIT) == 0;
}

static bool kill_child(pid_t pid) {
    return is_child(pid) && kill(pid, SIGKILL) == 0;
}

/* The process whose directory it is; 0 for any other name. */
static pid_t number_of(const char *name) {
    char *end = NULL;
    long number = *name >= '0' && *name <= '9' ? strtol(name, &end, 10) : 0;
    return end != NULL && *end == '\0' ? (pid_t)number : 0;
}

/*
 * Kills all children; false where there are none that can be found and killed. The system's list of processes is only asked for numbers:
 * whose child each one is, waitid says. Where there is no list, the solver is all that is found.
 */
static bool kill_children(const struct keeping *keeping) {
    bool found = kill_child(keeping->solver);
    DIR *list = opendir("/proc");
    if (list == NULL) {
        return found;
    }
    for (const struct dirent *entry = readdir(list); entry != NULL; entry = readdir(list)) {
        pid_t pid = number_of(entry->d_name);
        found = (pid > 0 && kill_child(pid)) || found;
    }
    (void)closedir(list); /* it was only read */
    return found;
}

/* Waits for a child, and for others that have ended by then. */
static void reap(struct keeping *keeping) {
    int how = 0;
    for (int reaped = 0; reaped < REAPED_AT_ONCE; reaped++) {
        int status = 0;
        pid_t pid = waitpid(-1, &status, how);
        if (pid == 0 || (pid < 0 && errno != EINTR)) {
            return;
        }
        if (pid == keeping->solver) {
            tell(keeping, status);
        }
        how = pid > 0 ? WNOHANG : how;
    }
}

/*
 * The group is killed at one stroke, so that none of it can start another. Whoever has left it becomes the keeper's child as soon as its
 * parent has ended.
 */
static void end_all(struct keeping *keeping) {
    if (is_child(keeping->solver)) {
        (void)kill(-keeping->solver, SIGKILL); /* it fails where all have left the group */
    }
    while (kill_children(keeping)) {
        reap(keeping);
    }
}

/* Until the life pipe ends, which is never written to. `waiting` lets nothing through but a child's end. */
static void keep(struct keeping *keeping, const sigset_t *waiting) {
    static const struct timespec NO_TIME = {0};
    bool lives = true;
    bool has_more = true; /* children that have ended, perhaps */
    while (lives) {
        fd_set ready;
        FD_ZERO(&ready);
        FD_SET(LIFE, &ready);
        int count = pselect(LIFE + 1, &ready, NULL, NULL, has_more ? &NO_TIME : NULL, waiting);
        lives = count == 0 || (count < 0 && errno == EINTR);
        has_more = lives && look(keeping);
    }
}

/* A child's end only has to end the wait. */
static void wake(int signal) {
    (void)signal;
}

/*
 * In a session of its own no signal of a terminal reaches the keeper, and no other one is let through: it ends by its pipe. Nor is it meant
 * where somebody ends the program by its name. Orphans of the solver's are to become its children.
 */
static bool prepare(sigset_t *waiting) {
    sigset_t all;
    struct sigaction action = {.sa_handler = wake};
#ifdef __linux__
    (void)prctl(PR_SET_NAME, "solver-keeper"); /* only a name */
    (void)prctl(PR_SET_CHILD_SUBREAPER, 1UL); /* a system without it leaves those that have left the solver's group */
#endif
    return setsid() > 0 && sigfillset(&all) == 0 && sigprocmask(SIG_SETMASK, &all, NULL) == 0 && sigemptyset(&action.sa_mask) == 0 &&
           sigaction(SIGCHLD, &action, NULL) == 0 && sigfillset(waiting) == 0 && sigdelset(waiting, SIGCHLD) == 0;
}

static int highest(const struct keeper_ends *ends) {
    int most = ends->ended > ends->life ? ends->ended : ends->life;
    for (int stream = 0; stream < LAUNCH_STREAMS; stream++) {
        most = ends->streams[stream] > most ? ends->streams[stream] : most;
    }
    return most;
}

/* Nothing is kept open but the two pipes. */
static bool settle(const struct keeper_ends *ends) {
    bool settled = dup2(ends->life, LIFE) == LIFE && dup2(ends->ended, ENDED) == ENDED;
    for (int descriptor = STDERR_FILENO; descriptor <= highest(ends); descriptor++) {
        (void)close(descriptor); /* whether it was open or not */
    }
    (void)open("/dev/null", O_RDWR); /* in the place of standard error; nothing is written there */
    return settled;
}

void keeper_run(const struct keeper_ends *ends, const char *const *command, uint64_t memory) {
    sigset_t waiting;
    struct keeping keeping = {0};
    pid_t keeper = getpid();
    keeping.solver = prepare(&waiting) ? fork() : -1;
    if (keeping.solver == 0) {
        launch(ends->streams, keeper, command, memory);
    }
    if (keeping.solver < 0) {
        launch_complain(ends->streams[STDERR_FILENO], command);
        (void)settle(ends); /* it ends either way */
        tell(&keeping, LAUNCH_FAILED << EXIT_SHIFT);
        _exit(LAUNCH_FAILED);
    }
    (void)setpgid(keeping.solver, keeping.solver); /* the solver does it too, and one of both is first */
    if (settle(ends)) {
        keep(&keeping, &waiting);
    }
    end_all(&keeping);
    _exit(0);
}
