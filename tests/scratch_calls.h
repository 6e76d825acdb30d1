/* Every call that takes a scratch, on the small book of the writer's tests, and all that it may leave beside the scratch. */
#ifndef SCRATCH_CALLS_H
#define SCRATCH_CALLS_H

#include "growth_calls.h"

enum { PREMISE = 2, TEXT_SIZE = 256, ANSWER_NUMBERS = 4 };

/* What a call answers, its refusal first, and every other buffer that it may write to. */
struct left {
    uint64_t answer[ANSWER_NUMBERS];
    uint8_t image[LESKOFAR_IMAGE];
    uint8_t narrow[LESKOFAR_NARROW_IMAGE];
    uint8_t text[TEXT_SIZE];
    uint8_t reason[TEXT_SIZE];
    uint8_t new_book[ROOM_NEW];
};

static struct lent lent;
static struct left left;
static size_t text_room;

#define IMAGE left.image, sizeof left.image
#define NARROW_IMAGE left.narrow, sizeof left.narrow
#define WRITTEN left.text, text_room
#define REASON left.reason, sizeof left.reason

#define ANSWER(...) memcpy(left.answer, (const uint64_t[ANSWER_NUMBERS]){__VA_ARGS__}, sizeof left.answer)

static inline void note_printed(leskofar_printed a) {
    ANSWER(a.refusal, a.length);
}

static inline void note_answer(leskofar_answer a) {
    ANSWER(a.refusal, a.result, a.text, a.reason);
}

static inline void call_book_test(void) {
    ANSWER(leskofar_book_test(BOOK(&lent)));
}

static inline void call_print(void) {
    note_printed(leskofar_print(BOOK(&lent), PREMISE, 0, 0, 0, WRITTEN));
}

static inline void call_trace(void) {
    note_printed(leskofar_trace(BOOK(&lent), NODE, WRITTEN));
}

static inline void call_listing(void) {
    note_printed(leskofar_listing(BOOK(&lent), NODE, FREE, WRITTEN));
}

static inline void call_move(void) {
    note_answer(leskofar_move(BOOK(&lent), IMAGE, NODE, WRITTEN));
}

static inline void call_ask(void) {
    note_answer(leskofar_ask(BOOK(&lent), IMAGE, NODE, FREE, WRITTEN));
}

static inline void call_reply(void) {
    note_answer(leskofar_reply(BOOK(&lent), IMAGE, 1, TEXT("sat"), WRITTEN, REASON));
}

static inline void call_model(void) {
    note_answer(leskofar_model(BOOK(&lent), IMAGE, TEXT("sat"), 1, TEXT("(x 1)"), WRITTEN, REASON));
}

static inline void call_widen(void) {
    ANSWER(leskofar_widen(BOOK(&lent), NARROW_IMAGE, IMAGE));
}

static inline void call_narrow(void) {
    ANSWER(leskofar_narrow(BOOK(&lent), IMAGE, NARROW_IMAGE));
}

static inline void call_nodes_test(void) {
    const uint8_t nodes[2 * NUMBER] = {NODE};
    leskofar_nodes_tested a = leskofar_nodes_test(BOOK(&lent), nodes, sizeof nodes);
    ANSWER(a.refusal, a.result, a.position);
}

/* What is sent for a question at the node, and what closes it. */
#define DOWN "(push 1)\n(declare-fun x () Int)\n(assert (< x 9))\n"
#define QUESTION DOWN "(push 1)\n(push 1)\n(assert (not x))\n(check-sat)\n"
#define TWO_POPS "(pop 1)\n(pop 1)\n"

static inline void call_audit(void) {
    const uint8_t questions[2 * NUMBER] = {[0] = NODE, [NUMBER] = FREE};
    leskofar_audited a = leskofar_audit(BOOK(&lent), questions, sizeof questions, TEXT(QUESTION));
    ANSWER(a.refusal, a.differs);
}

/* How far the session has come that a call goes on with; the last one is of the narrow kind. */
enum session { FRESH, ASKED, REPLIED, WIDE_SESSIONS, NARROWED = WIDE_SESSIONS };

/* A call of the writer is told by its own function. */
static const struct scratch_call {
    const char *name;
    void (*call)(void);
    leskofar_appended (*grow)(struct lent *);
    enum session session;
    const char *text; /* that it writes where it is accepted */
} SCRATCH_CALLS[] = {
    {"book_test", .call = call_book_test},
    {"print", .call = call_print, .text = "(< x 9)"},
    {"trace", .call = call_trace, .text = "  x\n"},
    {"listing", .call = call_listing, .text = "----- Proof obligation:\n  <(x, 9)\n  |-\n  x\n"},
    {"move", .call = call_move, .text = DOWN},
    {"ask", .call = call_ask, .text = QUESTION},
    {"reply", .call = call_reply, .session = ASKED, .text = "(get-model)\n"},
    {"model", .call = call_model, .session = REPLIED, .text = TWO_POPS},
    {"widen", .call = call_widen, .session = NARROWED},
    {"narrow", .call = call_narrow, .session = ASKED},
    {"nodes_test", .call = call_nodes_test},
    {"audit", .call = call_audit},
    {"append_name", .grow = call_name},
    {"append_constant", .grow = call_constant},
    {"append_term", .grow = call_term},
    {"append_node", .grow = call_node},
    {"extend", .grow = call_extend},
    {"extend_with_equality", .grow = call_equality},
    {"record", .grow = call_record},
    {"record_trace_point", .grow = call_point},
};
enum { SCRATCH_CALL_COUNT = sizeof SCRATCH_CALLS / sizeof SCRATCH_CALLS[0] };

/* The small book; its node has a trace. */
static inline void traced_records(struct records *r) {
    enum { TRACE_FIELD = 2 };
    small_records(r);
    r->numbers[CONTEXTS][TRACE_FIELD] = X_NAME + 1;
}

static uint8_t images[WIDE_SESSIONS][LESKOFAR_IMAGE];
static uint8_t narrow_image[LESKOFAR_NARROW_IMAGE];

/* The call's session, and every other buffer filled. */
static inline void lay_session(enum session session) {
    memset(&left, FILL, sizeof left);
    if (session == NARROWED) {
        memcpy(left.narrow, narrow_image, sizeof left.narrow);
    } else {
        memcpy(left.image, images[session], sizeof left.image);
    }
}

/* Makes the call on what is lent and laid. */
static inline void make_call(const struct scratch_call *c) {
    if (c->grow == NULL) {
        c->call();
    } else {
        leskofar_appended a = c->grow(&lent);
        ANSWER(a.refusal, a.number, a.length);
    }
    memcpy(left.new_book, lent.new_book, sizeof left.new_book);
}

/* Brings sessions as far as the calls need them, with a scratch just long enough. */
static inline void bring_sessions(const struct records *r) {
    lend(&lent, r);
    text_room = TEXT_SIZE;
    expect("a fresh session", leskofar_fresh(images[FRESH], sizeof images[FRESH]) == LESKOFAR_ACCEPTED);
    lay_session(FRESH);
    call_ask();
    memcpy(images[ASKED], left.image, sizeof left.image);
    lay_session(ASKED);
    call_narrow();
    memcpy(narrow_image, left.narrow, sizeof left.narrow);
    call_reply();
    memcpy(images[REPLIED], left.image, sizeof left.image);
}

#endif
