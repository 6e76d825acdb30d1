#include "signals.h"

#include <errno.h>
#include <signal.h>
#include <stddef.h>
#include <sys/wait.h>
#include <unistd.h>

static const int ENDING[] = {SIGINT, SIGTERM, SIGHUP, SIGQUIT, SIGUSR1, SIGUSR2, SIGALRM};
enum { ENDING_COUNT = sizeof ENDING / sizeof ENDING[0] };

/* Those that would end the program where a call's result tells what to do. */
static const int IGNORED[] = {SIGPIPE, SIGXFSZ};
enum { IGNORED_COUNT = sizeof IGNORED / sizeof IGNORED[0] };

/* What was held back when the program began. */
static sigset_t held_before;

static volatile sig_atomic_t watched_life = SIGNALS_NO_PIPE;
static volatile sig_atomic_t watched_keeper = SIGNALS_NO_KEEPER;

void signals_watch(int life, pid_t keeper) {
    watched_life = life;
    watched_keeper = keeper;
}

/*
 * The handler is set for one time only and does not hold its signal back: the one raised here ends the program at once, and so does one
 * that comes again while the keeper is waited for. The keeper does its work either way.
 */
static void end_watched(int signal) {
    int life = watched_life;
    watched_life = SIGNALS_NO_PIPE;
    if (life >= 0) {
        (void)close(life); /* the descriptor is gone whatever close answers */
    }
    if (watched_keeper > 0) {
        while (waitpid((pid_t)watched_keeper, NULL, 0) < 0 && errno == EINTR) {
        }
    }
    (void)raise(signal);
}

static bool set(int signal, void (*handler)(int)) {
    struct sigaction action = {.sa_handler = handler, .sa_flags = handler == end_watched ? (int)(SA_RESETHAND | SA_NODEFER) : 0};
    return sigemptyset(&action.sa_mask) == 0 && sigaction(signal, &action, NULL) == 0;
}

/* Changes the handler of an ending signal. One that whoever started the program ignores (nohup does) stays ignored. */
static bool set_ending(int signal, void (*handler)(int)) {
    struct sigaction before;
    if (sigaction(signal, NULL, &before) != 0) {
        return false;
    }
    return before.sa_handler == SIG_IGN || set(signal, handler);
}

static bool set_all(void (*ending)(int), void (*ignored)(int)) {
    bool done = true;
    for (size_t i = 0; i < ENDING_COUNT; i++) {
        done = done && set_ending(ENDING[i], ending);
    }
    for (size_t i = 0; i < IGNORED_COUNT; i++) {
        done = done && set(IGNORED[i], ignored);
    }
    return done;
}

/* pthread_sigmask gives the error's number. */
static bool is_done(int error) {
    errno = error != 0 ? error : errno;
    return error == 0;
}

/* An ignored SIGCHLD, which is inherited, would hide how a process ended. */
bool signals_prepare(void) {
    return is_done(pthread_sigmask(SIG_BLOCK, NULL, &held_before)) && set(SIGCHLD, SIG_DFL) && set_all(end_watched, SIG_IGN);
}

bool signals_hold(void) {
    sigset_t signals;
    bool made = sigemptyset(&signals) == 0;
    for (size_t i = 0; i < ENDING_COUNT; i++) {
        made = made && sigaddset(&signals, ENDING[i]) == 0;
    }
    return made && is_done(pthread_sigmask(SIG_BLOCK, &signals, NULL));
}

bool signals_release(void) {
    return is_done(pthread_sigmask(SIG_SETMASK, &held_before, NULL));
}

bool signals_forget(void) {
    signals_watch(SIGNALS_NO_PIPE, SIGNALS_NO_KEEPER);
    return set_all(SIG_DFL, SIG_DFL) && set(SIGCHLD, SIG_DFL) && signals_release();
}
