/* Shows what came of the questions, and gathers the exit status. */
#ifndef REPORT_H
#define REPORT_H

#include "complain.h"
#include "premises.h"
#include "prove.h"
#include "show.h"

struct report {
    struct show show;
    bool is_verbose;        /* what the solver writes to its standard error is told always, and not only where it fails */
    bool shows_obligations; /* what is to be proved is shown before the answer */
    enum status status;     /* of all questions so far */
};

/* The traces on the way to a node, if there are any. */
void report_trace(const struct show *show, struct writer *writer, uint32_t node);

/* A question that is about to be asked. */
void report_question(const struct report *report, struct writer *writer, const struct question *question);

/* `at_node` is what is known of the premises there. */
void report_result(struct report *report, struct prover *prover, const struct question *question, const struct result *result,
                   enum premises at_node);

/* A question that is not asked, with a sentence why. */
void report_unasked(struct report *report, const struct question *question, const struct bytes *why);

/* Something else that counts for the status. */
void report_status(struct report *report, enum status status);

#endif
