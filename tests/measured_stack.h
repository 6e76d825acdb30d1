/* Runs a call on a thread's stack that is painted, and says how much of it was used. For programs that define _DEFAULT_SOURCE. */
#ifndef MEASURED_STACK_H
#define MEASURED_STACK_H

#include "expect.h"
#include "stop_if.h"
#include <leskofar.h>
#include <limits.h>
#include <pthread.h>
#include <string.h>
#include <sys/mman.h>

enum { PAINT = 0xA5, PAGE = 4096, LARGE_STACK = 1 << 23 };

struct job {
    uint32_t (*call)(uint32_t);
    uint32_t number;
    uint8_t *stack;
    size_t stack_len;
    uint32_t refusal;
    size_t used;
};

/* Makes the call, and counts from here down to the lowest byte that it has touched. */
static inline void *run_job(void *given) {
    struct job *job = given;
    volatile uint8_t here = 0;
    job->refusal = job->call(job->number);
    size_t clean = here;
    while (clean < job->stack_len && job->stack[clean] == PAINT) {
        clean++;
    }
    job->used = (size_t)((uintptr_t)&here - (uintptr_t)(job->stack + clean));
    return NULL;
}

/* Runs a call on a painted stack of a length, behind a page that may not be touched, and gives what it used. */
static inline size_t run_on(size_t stack_len, const char *name, uint32_t (*call)(uint32_t), uint32_t number) {
    size_t whole = PAGE + stack_len;
    uint8_t *pages = mmap(NULL, whole, PROT_READ | PROT_WRITE, MAP_PRIVATE | MAP_ANONYMOUS, -1, 0);
    stop_if(pages == MAP_FAILED, "map a stack");
    stop_if(mprotect(pages, PAGE, PROT_NONE) != 0, "guard a stack");
    struct job job = {call, number, pages + PAGE, stack_len, 0, 0};
    memset(job.stack, PAINT, stack_len);

    pthread_attr_t attr;
    pthread_t thread;
    stop_if(pthread_attr_init(&attr) != 0, "set up a thread");
    stop_if(pthread_attr_setstack(&attr, job.stack, stack_len) != 0, "give a thread its stack");
    stop_if(pthread_create(&thread, &attr, run_job, &job) != 0, "start a thread");
    stop_if(pthread_join(thread, NULL) != 0, "end a thread");
    stop_if(pthread_attr_destroy(&attr) != 0, "put a thread away");
    stop_if(munmap(pages, whole) != 0, "unmap a stack");
    expect(name, job.refusal == LESKOFAR_ACCEPTED);
    return job.used;
}

/* What a call is given, in words. */
struct given {
    const char *name;
    const char *where;
};

/* Measures a call with room enough, and tries it with no more than is promised. */
static inline void measure(const char *call_name, struct given g, size_t promised, uint32_t (*call)(uint32_t), uint32_t number) {
    const size_t small = (promised + (size_t)PTHREAD_STACK_MIN + PAGE - 1) / PAGE * PAGE;
    size_t used = run_on(LARGE_STACK, call_name, call, number);
    printf("%s, %s %s: %zu bytes of stack\n", call_name, g.name, g.where, used);
    expect("within what is promised", used <= promised);
    (void)run_on(small, call_name, call, number);
}

#endif
