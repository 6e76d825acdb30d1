#include "transfer.h"

#include "faults.h"

#include <errno.h>
#include <limits.h>
#include <poll.h>
#include <time.h>
#include <unistd.h>

/* What is kept of a solver's standard error. */
enum { MOST_ERRORS = 1 << 12 };
enum { READ_AT_ONCE = 1 << 16 };
enum { MILLISECONDS = 1000, NANOSECONDS = 1000000 };

/* A solver that has closed its input may still say why; it gets this long, in milliseconds. */
enum { LAST_WORDS = 1000 };

/* The pipes that are waited for. */
enum { INPUT, OUTPUT, ERRORS, ENDED, PIPE_COUNT };

/* In milliseconds; below 0 where the system does not say. */
static int64_t now(void) {
    struct timespec time;
    if (clock_gettime(CLOCK_MONOTONIC, &time) != 0) {
        return -1;
    }
    return (int64_t)time.tv_sec * MILLISECONDS + time.tv_nsec / NANOSECONDS;
}

struct patience patience_of(const struct conversation *talk) {
    return (struct patience){now() + (int64_t)talk->limits.seconds * MILLISECONDS, false};
}

/* The solver has closed its input: nothing more can be asked of it. */
static void input_closed(struct conversation *talk, struct patience *patience) {
    process_close(&talk->process.in);
    int64_t last_words = now() + LAST_WORDS;
    patience->deadline = last_words < patience->deadline ? last_words : patience->deadline;
}

bool transfer_is_due(const struct conversation *talk) {
    return talk->sent < talk->to_send.length;
}

/* The solver takes what fits its pipe. */
static bool write_some(struct conversation *talk, short ready, struct patience *patience) {
    if ((ready & POLLOUT) == 0) {
        input_closed(talk, patience);
        return true;
    }
    ssize_t written = write(talk->process.in, talk->to_send.at + talk->sent, talk->to_send.length - talk->sent);
    if (written >= 0) {
        talk->sent += (size_t)written;
    } else if (errno == EPIPE) {
        input_closed(talk, patience);
    } else if (errno != EAGAIN && errno != EINTR) {
        return fault_tell(talk, FAULT_SYSTEM);
    }
    return true;
}

/* Adds what a pipe holds to `bytes`; false at its end. Memory that does not suffice is told apart. */
static bool read_some(int pipe_end, struct bytes *bytes, bool *has_memory) {
    uint8_t chunk[READ_AT_ONCE];
    ssize_t length = read(pipe_end, chunk, sizeof chunk);
    if (length > 0) {
        *has_memory = bytes_add(bytes, chunk, (size_t)length);
    }
    return length > 0 || (length < 0 && (errno == EAGAIN || errno == EINTR));
}

static bool read_answer(struct conversation *talk) {
    bool has_memory = true;
    if (!read_some(talk->process.out, &talk->received, &has_memory)) {
        return fault_tell(talk, FAULT_ENDED);
    }
    if (!has_memory) {
        return fault_tell(talk, FAULT_MEMORY);
    }
    return talk->received.length <= CONVERSATION_MOST_ANSWER || fault_tell(talk, FAULT_TOO_LONG);
}

/* Only the first bytes are kept. */
static bool read_errors(struct conversation *talk) {
    bool has_memory = true;
    if (!read_some(talk->process.err, &talk->errors, &has_memory)) {
        process_close(&talk->process.err);
    }
    if (talk->errors.length > MOST_ERRORS) {
        talk->errors.length = MOST_ERRORS;
    }
    return has_memory || fault_tell(talk, FAULT_MEMORY);
}

static bool serve(struct conversation *talk, const struct pollfd *ready, struct patience *patience) {
    return (ready[ERRORS].revents == 0 || read_errors(talk)) &&
           (ready[INPUT].revents == 0 || write_some(talk, ready[INPUT].revents, patience)) &&
           (ready[OUTPUT].revents == 0 || read_answer(talk));
}

/*
 * How long a turn waits, in milliseconds; below 0 for not at all any more. The clock may have run out while the answer was already there:
 * so the pipes are looked at once more before a timeout is told.
 */
static int waiting_time(struct patience *patience, int64_t time) {
    int64_t left = patience->deadline - time;
    if (left > 0) {
        return left < INT_MAX ? (int)left : INT_MAX;
    }
    bool was_over = patience->is_over;
    patience->is_over = true;
    return was_over ? -1 : 0;
}

bool transfer_turn(struct conversation *talk, struct patience *patience) {
    int64_t time = now();
    if (time < 0) {
        return fault_tell(talk, FAULT_SYSTEM);
    }
    int wait = waiting_time(patience, time);
    if (wait < 0) {
        return fault_tell(talk, talk->process.in < 0 ? FAULT_INPUT_CLOSED : FAULT_TIMEOUT);
    }
    struct process *process = &talk->process;
    bool has_ended = conversation_has_ended(talk);
    struct pollfd ready[PIPE_COUNT] = {[INPUT] = {process->in, transfer_is_due(talk) ? POLLOUT : 0, 0},
                                       [OUTPUT] = {process->out, POLLIN, 0},
                                       [ERRORS] = {process->err, POLLIN, 0},
                                       [ENDED] = {has_ended ? -1 : process->ended, POLLIN, 0}};
    /* Whoever else keeps an ended solver's pipes open is not waited for. */
    int count = poll(ready, PIPE_COUNT, has_ended ? 0 : wait);
    if (count < 0) {
        return errno == EINTR || fault_tell(talk, FAULT_SYSTEM);
    }
    if (count == 0 && has_ended) {
        return fault_tell(talk, FAULT_ENDED);
    }
    return serve(talk, ready, patience);
}

bool transfer_look(struct conversation *talk) {
    struct pollfd ready = {talk->process.out, POLLIN, 0};
    if (poll(&ready, 1, 0) < 0) {
        return errno == EINTR || fault_tell(talk, FAULT_SYSTEM);
    }
    return ready.revents == 0 || read_answer(talk);
}
