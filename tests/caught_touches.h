/* Ends a call that touches what it may not, so that a test can tell which one it was. For programs that define _DEFAULT_SOURCE. */
#ifndef CAUGHT_TOUCHES_H
#define CAUGHT_TOUCHES_H

#include "stop_if.h"
#include <setjmp.h>
#include <signal.h>
#include <stddef.h>

static sigjmp_buf call_began;

static inline void end_call(int signal) {
    siglongjmp(call_began, signal);
}

static inline void handle_touches(void (*handler)(int)) {
    struct sigaction action = {.sa_handler = handler};
    stop_if(sigemptyset(&action.sa_mask) != 0 || sigaction(SIGSEGV, &action, NULL) != 0 || sigaction(SIGBUS, &action, NULL) != 0,
            "handle signals");
}

/* Makes a call, and tells whether it came to its end. A fault of the test itself still ends the test. */
static inline int comes_to_its_end(void (*call)(void)) {
    volatile int has_ended = 0;
    handle_touches(end_call);
    if (sigsetjmp(call_began, 1) == 0) {
        call();
        has_ended = 1;
    }
    handle_touches(SIG_DFL);
    return has_ended;
}

#endif
