#include "faults.h"

#include "sentence.h"

#include <errno.h>
#include <inttypes.h>
#include <signal.h>
#include <string.h>
#include <sys/wait.h>
#include <unistd.h>

/* The most letters that are shown of the solver's own. */
enum { MOST_SHOWN = 1024 };
enum { BYTES_PER_MIB = 1 << 20 };

/* How a solver ended by itself. One that only closed its output has been killed by us, of which nothing is said. */
static void add_ending(struct bytes *fault, int status) {
    if (WIFEXITED(status) && WEXITSTATUS(status) == PROCESS_NOT_STARTED) {
        sentence_add(fault, "the solver could not be started");
    } else if (WIFEXITED(status)) {
        sentence_add(fault, "the solver ended with status %d before its answer was whole", WEXITSTATUS(status));
    } else if (WIFSIGNALED(status) && WTERMSIG(status) != SIGKILL) {
        sentence_add(fault, "the solver was ended by signal %d before its answer was whole", WTERMSIG(status));
    } else {
        sentence_add(fault, "the solver ended or closed its output before its answer was whole");
    }
}

static void add_what_happened(struct conversation *talk, enum fault fault, int why, int status) {
    struct bytes *message = &talk->fault;
    switch (fault) {
    case FAULT_NO_PROCESS:
        sentence_add(message, "no process can be made for the solver: %s", strerror(why));
        break;
    case FAULT_ENDED:
        add_ending(message, status);
        break;
    case FAULT_INPUT_CLOSED:
        sentence_add(message, "the solver closed its input before it had read everything");
        break;
    case FAULT_LEFT_OVER:
        sentence_add(message, "the solver had written something before the question was sent");
        break;
    case FAULT_TIMEOUT:
        sentence_add(message, "the solver gave no whole answer within %" PRIu64 " seconds", talk->limits.seconds);
        break;
    case FAULT_TOO_LONG:
        sentence_add(message, "the solver's answer is longer than %d MiB", CONVERSATION_MOST_ANSWER / BYTES_PER_MIB);
        break;
    case FAULT_MEMORY:
        sentence_add(message, "the memory does not suffice for what is sent to the solver and what it writes");
        break;
    case FAULT_SYSTEM:
        sentence_add(message, "the conversation with the solver broke off: %s", strerror(why));
        break;
    }
}

/* What the solver wrote, the first of it, without the line ends around it. */
static void add_shown(struct bytes *fault, const char *title, const struct bytes *text, size_t begin) {
    size_t end = text->length - begin < MOST_SHOWN ? text->length : begin + MOST_SHOWN;
    while (begin < end && text->at[begin] == '\n') {
        begin++;
    }
    while (begin < end && text->at[end - 1] == '\n') {
        end--;
    }
    if (begin < end) {
        sentence_add(fault, "\n%s: ", title);
        (void)bytes_add(fault, text->at + begin, end - begin);
    }
}

/* What an ended solver's standard error still holds, as far as it is shown. */
static void read_last_errors(struct conversation *talk) {
    uint8_t chunk[MOST_SHOWN];
    ssize_t length = talk->process.err < 0 ? 0 : read(talk->process.err, chunk, sizeof chunk);
    if (length > 0) {
        (void)bytes_add(&talk->errors, chunk, (size_t)length);
    }
}

/* Ends the solver, and gives the status that it ended with. */
static int end_process(struct conversation *talk) {
    int status = 0;
    if (talk->is_open) {
        status = process_kill(&talk->process);
        read_last_errors(talk);
        process_close_all(&talk->process);
        talk->is_open = false;
    }
    return status;
}

/* A solver that lacks memory seldom says so, and one that says so does it in words of its own. */
static void add_memory(struct conversation *talk) {
    if (talk->limits.memory > 0) {
        uint64_t mib = talk->limits.memory / BYTES_PER_MIB;
        sentence_add(&talk->fault, "\nits memory is limited to %" PRIu64 " MiB, which may not suffice", mib);
    }
}

static void close_log(struct conversation *talk) {
    log_drop(talk->log);
    log_received(talk->log, talk->fault.at, talk->fault.length);
}

bool fault_tell(struct conversation *talk, enum fault fault) {
    int why = errno;
    int status = end_process(talk);
    add_what_happened(talk, fault, why, status);
    add_shown(&talk->fault, "its output", &talk->received, talk->answered);
    add_shown(&talk->fault, "its error output", &talk->errors, 0);
    if (fault == FAULT_ENDED || fault == FAULT_INPUT_CLOSED) {
        add_memory(talk);
    }
    close_log(talk);
    return false;
}

void fault_answer(struct conversation *talk, const char *what, const struct answer *answer) {
    (void)end_process(talk); /* it was still there, or its end would have been the fault */
    sentence_add(&talk->fault, "%s", what);
    (void)bytes_add(&talk->fault, answer->text, answer->length < MOST_SHOWN ? answer->length : MOST_SHOWN);
    add_shown(&talk->fault, "its error output", &talk->errors, 0);
    add_memory(talk);
    close_log(talk);
}
