#include "prove.h"

#include "faults.h"

#include <inttypes.h>
#include <stdio.h>
#include <string.h>

/* What every solver is told first, as SMT-LIB 2.6 has it: to answer questions only, and to keep models. */
static const char OPTIONS[] = "(set-option :print-success false)\n(set-option :produce-models true)\n";

static const char UNSAT[] = "unsat";
static const char SAT[] = "sat";
static const char UNKNOWN[] = "unknown";

static const char ERROR_BEGIN[] = "(error";
static const char UNSUPPORTED[] = "unsupported";

/* The longest note of a question in the log. */
enum { MOST_NOTE = 80 };

static bool is_text(const struct answer *answer, const char *text) {
    return answer->is_one && answer->length == strlen(text) && memcmp(answer->text, text, answer->length) == 0;
}

static bool begins_with(const struct answer *answer, const char *text) {
    return answer->is_one && answer->length >= strlen(text) && memcmp(answer->text, text, strlen(text)) == 0;
}

static bool is_reply(const struct answer *answer) {
    return is_text(answer, UNSAT) || is_text(answer, SAT) || is_text(answer, UNKNOWN);
}

static bool is_model(const struct answer *answer) {
    return begins_with(answer, "(") && !begins_with(answer, ERROR_BEGIN);
}

/* A solver may have no model, after `unknown` for one; that is no fault. */
static bool is_no_model(const struct answer *answer) {
    return begins_with(answer, ERROR_BEGIN) || is_text(answer, UNSUPPORTED);
}

static struct result refused(struct prover *prover, uint32_t refusal) {
    conversation_end(&prover->talk);
    return (struct result){.verdict = VERDICT_REFUSED, .refusal = refusal};
}

/* The pops that close a question. Where the solver is gone, the next question finds none and starts a new one. */
static void send_pops(struct prover *prover) {
    if (prover->talk.is_open) {
        (void)conversation_tell(&prover->talk, prover->writer->text.at, prover->writer->text.length);
    }
}

/* What went wrong is kept, since the next solver's conversation begins anew. Cut short where the memory does not suffice. */
static void note_failure(struct prover *prover) {
    const struct bytes *fault = &prover->talk.fault;
    prover->failure.length = 0;
    (void)bytes_add(&prover->failure, fault->at, fault->length);
}

/* The library is told that the check failed, and closes the question with the failure as its reason. */
static struct result failed(struct prover *prover) {
    note_failure(prover);
    uint32_t refusal = writer_reply(prover->writer, false, prover->failure.at, prover->failure.length);
    if (refusal != LESKOFAR_ACCEPTED) {
        return refused(prover, refusal);
    }
    return (struct result){.verdict = VERDICT_FAILED, .solver_failed = true};
}

/* Whether a solver is there that can be asked; a new one is told first what it has to know. */
static bool has_solver(struct prover *prover) {
    struct conversation *talk = &prover->talk;
    return talk->is_open ||
           (conversation_begin(talk, &prover->engine) && conversation_tell(talk, (const uint8_t *)OPTIONS, sizeof OPTIONS - 1));
}

/* Sends the writer's text to the solver, and waits for the answer. */
static bool send(struct prover *prover, struct answer *answer) {
    const struct bytes *text = &prover->writer->text;
    return conversation_ask(&prover->talk, text->at, text->length, answer);
}

/* Waits for the model: whether there is one. Where there is none `failure` says why. */
static bool has_model(struct prover *prover, struct answer *answer) {
    if (!send(prover, answer)) {
        note_failure(prover);
        return false;
    }
    if (is_no_model(answer)) {
        prover->failure.length = 0;
        (void)bytes_add(&prover->failure, answer->text, answer->length); /* cut short where the memory does not suffice */
        return false;
    }
    if (!is_model(answer)) {
        fault_answer(&prover->talk, "the solver's answer is no model: ", answer);
        note_failure(prover);
        return false;
    }
    return true;
}

/* A model is owed. Without one the reply alone is the reason. */
static struct result ask_for_model(struct prover *prover, enum verdict verdict) {
    const struct bytes *reply = &prover->reply;
    struct answer answer = {0};
    struct result result = {.verdict = verdict, .has_model = has_model(prover, &answer)};
    result.solver_failed = !prover->talk.is_open;
    uint32_t refusal = writer_model(prover->writer, reply->at, reply->length, result.has_model ? answer.text : NULL,
                                    result.has_model ? answer.length : 0);
    if (refusal != LESKOFAR_ACCEPTED) {
        return refused(prover, refusal);
    }
    send_pops(prover);
    return result;
}

/* Hands a reply to the library, and does what comes of it. */
static struct result take_reply(struct prover *prover, const struct answer *answer) {
    struct writer *writer = prover->writer;
    enum verdict verdict = is_text(answer, UNKNOWN) ? VERDICT_UNKNOWN : VERDICT_SAT;
    prover->reply.length = 0;
    bool is_kept = bytes_add(&prover->reply, answer->text, answer->length);
    uint32_t refusal =
        is_kept ? writer_reply(writer, true, answer->text, answer->length) : (uint32_t)LESKOFAR_BUFFER_TOO_SHORT;
    if (refusal != LESKOFAR_ACCEPTED) {
        return refused(prover, refusal);
    }
    if (writer->result != LESKOFAR_PROVED) {
        return ask_for_model(prover, verdict);
    }
    send_pops(prover);
    return (struct result){.verdict = VERDICT_PROVED};
}

/* The library's text for the question is there, and goes to the solver. */
static struct result put(struct prover *prover) {
    struct answer answer = {0};
    if (!has_solver(prover) || !send(prover, &answer)) {
        return failed(prover);
    }
    if (!is_reply(&answer)) {
        const char *what = answer.length == 0 ? "the solver gave no reply to the check" : "the solver answered the check with ";
        fault_answer(&prover->talk, what, &answer);
        return failed(prover);
    }
    return take_reply(prover, &answer);
}

static void note_question(struct prover *prover, const struct question *question) {
    char note[MOST_NOTE];
    int length = snprintf(note, sizeof note, "node %" PRIu32 ", term %" PRIu32, question->node, question->term);
    if (length > 0 && (size_t)length < sizeof note) {
        log_note(prover->talk.log, note);
    }
}

struct result prover_ask(struct prover *prover, const struct question *question) {
    struct conversation *talk = &prover->talk;
    if (talk->is_open && conversation_has_ended(talk)) {
        conversation_end(talk);
    }
    if (!talk->is_open && !marks_draw(&talk->marks)) {
        return (struct result){.verdict = VERDICT_UNASKED};
    }
    note_question(prover, question);
    uint32_t refusal = talk->is_open ? (uint32_t)LESKOFAR_ACCEPTED : writer_fresh(prover->writer);
    if (refusal == LESKOFAR_ACCEPTED) {
        refusal = writer_ask(prover->writer, question->node, question->term);
    }
    /* A refused call has changed nothing: the solver that there is serves the next question. */
    return refusal == LESKOFAR_ACCEPTED ? put(prover) : (struct result){.verdict = VERDICT_REFUSED, .refusal = refusal};
}

void prover_begin(struct prover *prover, struct writer *writer, const struct engine *engine, const struct limits *limits,
                  struct log *log) {
    *prover = (struct prover){.writer = writer, .engine = *engine, .talk = {.limits = *limits, .log = log}};
}

void prover_end(struct prover *prover) {
    conversation_free(&prover->talk);
    bytes_free(&prover->reply);
    bytes_free(&prover->failure);
}
