#include "stack.h"

#include "signals.h"

#include <errno.h>
#include <leskofar.h>
#include <pthread.h>
#include <string.h>

/* What this program itself takes, beside the library's calls, with its buffers and what a thread holds there. */
enum { OWN_STACK = 1 << 20, BYTES_PER_KIB = 1 << 10 };
enum { STACK_SIZE = LESKOFAR_SESSION_STACK + OWN_STACK };

struct job {
    enum status (*work)(int count, char **arguments);
    int count;
    char **arguments;
    enum status status;
};

static void *do_job(void *given) {
    struct job *job = given;
    (void)signals_release(); /* the mask is one that the system gave */
    job->status = job->work(job->count, job->arguments);
    return NULL;
}

/* 0 or the error's number. */
static int start(pthread_t *thread, struct job *job) {
    pthread_attr_t attributes;
    int error = pthread_attr_init(&attributes);
    if (error != 0) {
        return error;
    }
    error = pthread_attr_setstacksize(&attributes, STACK_SIZE);
    if (error == 0) {
        error = pthread_create(thread, &attributes, do_job, job);
    }
    (void)pthread_attr_destroy(&attributes); /* nothing depends on it any more */
    return error;
}

/* The first thread holds the signals back, and the new one begins so; once the work is done, nobody is left whom they would have to end. */
enum status stack_run(enum status (*work)(int count, char **arguments), int count, char **arguments) {
    struct job job = {work, count, arguments, STATUS_REFUSED};
    pthread_t thread;
    int error = signals_hold() ? start(&thread, &job) : errno;
    if (error == 0) {
        error = pthread_join(thread, NULL);
    }
    if (error != 0) {
        complain("the system gives no thread with %d KiB of stack: %s", STACK_SIZE / BYTES_PER_KIB, strerror(error));
    }
    (void)signals_release(); /* the mask is one that the system gave */
    return job.status;
}
