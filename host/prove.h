/* Puts questions to a solver: one solver and one session for all of them, and new ones after a failure. */
#ifndef PROVE_H
#define PROVE_H

#include "conversation.h"
#include "questions.h"
#include "writer.h"

enum verdict {
    VERDICT_PROVED,  /* the solver replied unsat */
    VERDICT_SAT,     /* it replied sat: there is a counterexample */
    VERDICT_UNKNOWN, /* it replied unknown */
    VERDICT_FAILED,  /* there is no reply */
    VERDICT_REFUSED, /* the library refuses the question */
    VERDICT_UNASKED  /* the system gives no random bits for marks: nothing may be asked */
};

/* What came of a question. The reason is the writer's; why there is no reply or no model stands in the prover's `failure`. */
struct result {
    enum verdict verdict;
    uint32_t refusal;   /* where it is refused */
    bool has_model;     /* behind sat and unknown */
    bool solver_failed; /* also behind a reply, where it failed at the model */
};

struct prover {
    struct writer *writer; /* with a book that passes the book test */
    struct engine engine;
    struct conversation talk;
    struct bytes reply;   /* kept until the model has come */
    struct bytes failure; /* what went wrong with the last question */
};

void prover_begin(struct prover *prover, struct writer *writer, const struct engine *engine, const struct limits *limits,
                  struct log *log);
struct result prover_ask(struct prover *prover, const struct question *question);
void prover_end(struct prover *prover);

#endif
