/*
 * An answer that is there when its time is over: the pipes are looked at once more before a timeout is told, and only once. The host's own
 * sources are linked, and a conversation is made by hand, without a solver.
 */
#include "../host/transfer.h"
#include "expect.h"

#include <fcntl.h>
#include <string.h>
#include <unistd.h>

static const char ANSWER[] = "unsat\n";

/* A conversation over pipes whose other ends the test holds: `there[1]` writes what the solver would. */
static struct conversation make(struct log *log, int there[2], int ended[2]) {
    struct conversation talk = {.is_open = false, .limits = {.seconds = 1}, .log = log};
    expect("pipes", pipe(there) == 0 && pipe(ended) == 0 && fcntl(ended[0], F_SETFL, O_NONBLOCK) == 0);
    talk.process = (struct process){.keeper = -1, .in = -1, .out = there[0], .err = -1, .ended = ended[0], .life = -1};
    return talk;
}

static void close_all(struct conversation *talk, int there[2], int ended[2]) {
    conversation_free(talk);
    expect("closed", close(there[0]) == 0 && close(there[1]) == 0 && close(ended[0]) == 0 && close(ended[1]) == 0);
}

/* The deadline passed long ago. */
static const struct patience PASSED = {.deadline = 0, .is_over = false};

int main(void) {
    struct log log = {0};
    int there[2];
    int ended[2];
    struct conversation talk = make(&log, there, ended);
    struct patience patience = PASSED;
    expect("written", write(there[1], ANSWER, strlen(ANSWER)) == (ssize_t)strlen(ANSWER));
    expect("an answer that is there is taken", transfer_turn(&talk, &patience) && talk.received.length == strlen(ANSWER));
    expect("the next turn is too late", !transfer_turn(&talk, &patience) && talk.fault.length > 0);
    close_all(&talk, there, ended);

    talk = make(&log, there, ended);
    patience = PASSED;
    expect("nothing is there", transfer_turn(&talk, &patience) && talk.received.length == 0);
    expect("and is not waited for", !transfer_turn(&talk, &patience) && talk.fault.length > 0);
    close_all(&talk, there, ended);
    return close_tests();
}
