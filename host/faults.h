/* What can go wrong with a solver, and how it is told. */
#ifndef FAULTS_H
#define FAULTS_H

#include "conversation.h"

enum fault {
    FAULT_NO_PROCESS,   /* no process can be made; errno says why */
    FAULT_ENDED,        /* the solver ended, or closed its output */
    FAULT_INPUT_CLOSED, /* the solver closed its input and did not go on */
    FAULT_LEFT_OVER,    /* something was there before the question was sent */
    FAULT_TIMEOUT,
    FAULT_TOO_LONG,
    FAULT_MEMORY,
    FAULT_SYSTEM /* a call that should not fail; errno says why */
};

/* Ends the conversation, and puts into its `fault` what happened, with what the solver wrote last. Answers false, as who met it has to. */
bool fault_tell(struct conversation *talk, enum fault fault);

/* The same where what was answered is no answer; `what` is said before it. */
void fault_answer(struct conversation *talk, const char *what, const struct answer *answer);

#endif
