#include "report.h"

#include "refusals.h"
#include "sentence.h"

#include <inttypes.h>
#include <stdio.h>
#include <string.h>

/* The longest line of a result. */
enum { MOST_LINE = 300 };

static const char *remark(enum premises at_node) {
    switch (at_node) {
    case PREMISES_UNASKED:
    case PREMISES_AGREE:
        return "";
    case PREMISES_CONTRADICT:
        return "; premises contradict each other: everything follows";
    case PREMISES_UNKNOWN:
        return "; whether premises contradict each other is not known";
    }
    return "";
}

static const char *words(const struct result *result) {
    switch (result->verdict) {
    case VERDICT_PROVED:
        return "Proved";
    case VERDICT_SAT:
        return result->solver_failed ? "Unproved (sat), the solver failed at the model" : "Unproved (sat)";
    case VERDICT_UNKNOWN:
        return result->solver_failed ? "Unproved (unknown), the solver failed at the model" : "Unproved (unknown)";
    case VERDICT_FAILED:
        return "Unproved, the solver failed";
    case VERDICT_UNASKED:
        return "refused: the system gives no random bits, and without them no answer can be known for its own";
    case VERDICT_REFUSED:
        break;
    }
    return refusal_meaning(result->refusal);
}

static void write_line(char line[MOST_LINE], const struct result *result, enum premises at_node) {
    int length = result->verdict == VERDICT_REFUSED
                     ? snprintf(line, MOST_LINE, "refused %" PRIu32 ": %s", result->refusal, words(result))
                     : snprintf(line, MOST_LINE, "%s%s", words(result), remark(at_node));
    if (length < 0) {
        line[0] = '\0';
    }
}

static enum status status_of(const struct result *result) {
    if (result->solver_failed) {
        return STATUS_SOLVER_FAILED;
    }
    switch (result->verdict) {
    case VERDICT_PROVED:
        return STATUS_DONE;
    case VERDICT_SAT:
    case VERDICT_UNKNOWN:
        return STATUS_NOT_PROVED;
    case VERDICT_FAILED:
        return STATUS_SOLVER_FAILED;
    case VERDICT_REFUSED:
    case VERDICT_UNASKED:
        return STATUS_REFUSED;
    }
    return STATUS_SOLVER_FAILED;
}

static enum colour colour_of(enum status status) {
    return status == STATUS_DONE ? GREEN : status == STATUS_NOT_PROVED ? YELLOW : RED;
}

void report_trace(const struct show *show, struct writer *writer, uint32_t node) {
    if (writer_trace(writer, node) == LESKOFAR_ACCEPTED && writer->text.length > 0) {
        show_block(show, "trace", writer->text.at, writer->text.length);
    }
}

/* Why a question is not proved. The model behind unknown need not satisfy the premises, so it is not called what it is not. */
static void show_reason(const struct report *report, struct prover *prover, const struct question *question,
                        const struct result *result) {
    struct writer *writer = prover->writer;
    bool is_no_counterexample = result->verdict == VERDICT_UNKNOWN && result->has_model;
    show_block(&report->show, is_no_counterexample ? "reason, with a model that is no counterexample" : "reason", writer->reason.at,
               writer->reason.length);
    if (result->verdict != VERDICT_FAILED && !result->has_model) {
        show_block(&report->show, "no model came", prover->failure.at, prover->failure.length);
    }
    report_trace(&report->show, writer, question->node);
}

/* What must not be missed is told even where all else is quiet. */
static void complain_of(const struct question *question, const char *line, const struct bytes *failure) {
    complain("node %" PRIu32 ", term %" PRIu32 ": %s%s%.*s", question->node, question->term, line, failure->length > 0 ? ": " : "",
             (int)failure->length, failure->length > 0 ? (const char *)failure->at : "");
}

static void make_harmless(struct bytes *text) {
    for (size_t i = 0; i < text->length; i++) {
        text->at[i] = show_harmless(text->at[i]);
    }
}

/* What the solver has written to its standard error since the last question. */
static void tell_errors(struct conversation *talk) {
    if (talk->is_open && talk->errors.length > 0) {
        make_harmless(&talk->errors);
        complain("the solver's error output: %.*s", (int)talk->errors.length, (const char *)talk->errors.at);
        talk->errors.length = 0;
    }
}

void report_question(const struct report *report, struct writer *writer, const struct question *question) {
    if (!report->shows_obligations || report->show.is_quiet) {
        return;
    }
    uint32_t refusal = writer_listing(writer, question->node, question->term);
    if (refusal == LESKOFAR_ACCEPTED) {
        show_text(writer->text.at, writer->text.length);
    } else if (refusal != LESKOFAR_NOT_IN_BOOK) {
        /* The question itself may still be asked; of one that is not in the book its result says so. */
        complain("node %" PRIu32 ", term %" PRIu32 ": the listing is refused %" PRIu32 ": %s", question->node, question->term, refusal,
                 refusal_meaning(refusal));
    }
}

void report_result(struct report *report, struct prover *prover, const struct question *question, const struct result *result,
                   enum premises at_node) {
    char line[MOST_LINE];
    const struct bytes none = {0};
    enum status status = status_of(result);
    write_line(line, result, at_node);
    show_result(&report->show, question->node, question->term, colour_of(status), line);
    if (status == STATUS_NOT_PROVED || status == STATUS_SOLVER_FAILED) {
        show_reason(report, prover, question, result);
    }
    if (report->show.is_quiet && (status >= STATUS_REFUSED || at_node == PREMISES_CONTRADICT)) {
        make_harmless(&prover->failure);
        complain_of(question, line, result->solver_failed ? &prover->failure : &none);
    }
    if (report->is_verbose) {
        tell_errors(&prover->talk);
    }
    report_status(report, status);
}

void report_unasked(struct report *report, const struct question *question, const struct bytes *why) {
    char line[MOST_LINE];
    int length = snprintf(line, sizeof line, "refused: %.*s", sentence_length(why), sentence_text(why));
    show_result(&report->show, question->node, question->term, colour_of(STATUS_REFUSED), length < 0 ? "refused" : line);
    report_status(report, STATUS_REFUSED);
}

void report_status(struct report *report, enum status status) {
    report->status = status > report->status ? status : report->status;
}
