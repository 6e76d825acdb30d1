/* The session calls as C sees them: document 01's session, refused calls, which leave everything as it was, and NULL for an empty buffer. */
#include "expect.h"
#include "sample_book.h"
#include <leskofar.h>
#include <string.h>

enum { FILL = 0xA5, TEXT_SIZE = 256, TWO_POPS = 16 };

/* A host: the sample book, a session's image, and buffers. */
struct host {
    uint8_t book[BOOK_SIZE];
    size_t book_len;
    uint8_t scratch[LESKOFAR_SCRATCH];
    uint8_t image[LESKOFAR_IMAGE];
    uint8_t text[TEXT_SIZE];
    uint8_t reason[TEXT_SIZE];
    size_t text_len;
    size_t reason_len;
};

static void start(struct host *h) {
    memset(h, FILL, sizeof *h);
    h->book_len = sample_book(h->book);
    h->text_len = sizeof h->text;
    h->reason_len = sizeof h->reason;
    expect("a fresh session", leskofar_fresh(h->image, sizeof h->image) == LESKOFAR_ACCEPTED);
}

static leskofar_answer move_to(struct host *h, uint32_t node) {
    return leskofar_move(h->book, h->book_len, h->scratch, sizeof h->scratch, h->image, sizeof h->image, node, h->text, h->text_len);
}

static leskofar_answer ask(struct host *h, uint32_t node, uint32_t goal) {
    return leskofar_ask(h->book, h->book_len, h->scratch, sizeof h->scratch, h->image, sizeof h->image, node, goal, h->text, h->text_len);
}

static leskofar_answer reply(struct host *h, uint32_t ok, const char *said) {
    return leskofar_reply(h->book, h->book_len, h->scratch, sizeof h->scratch, h->image, sizeof h->image, ok, (const uint8_t *)said,
                          strlen(said), h->text, h->text_len, h->reason, h->reason_len);
}

/* A model that is NULL is none. */
static leskofar_answer model(struct host *h, const char *said, const char *came) {
    return leskofar_model(h->book, h->book_len, h->scratch, sizeof h->scratch, h->image, sizeof h->image, (const uint8_t *)said,
                          strlen(said), came != NULL, (const uint8_t *)came, came == NULL ? 0 : strlen(came), h->text, h->text_len,
                          h->reason, h->reason_len);
}

/* Whether a call was accepted with just this result, text and reason; then the buffers are filled anew. */
static int led_to(struct host *h, leskofar_answer answer, uint32_t result, const char *text, const char *reason) {
    size_t text_len = strlen(text);
    size_t reason_len = strlen(reason);
    int holds = answer.refusal == LESKOFAR_ACCEPTED && answer.result == result && answer.text == text_len &&
                answer.reason == reason_len && memcmp(h->text, text, text_len) == 0 && memcmp(h->reason, reason, reason_len) == 0 &&
                all_are(h->text + text_len, sizeof h->text - text_len, FILL) &&
                all_are(h->reason + reason_len, sizeof h->reason - reason_len, FILL) && all_are(h->scratch, sizeof h->scratch, 0);
    memset(h->text, FILL, sizeof h->text);
    memset(h->reason, FILL, sizeof h->reason);
    memset(h->scratch, FILL, sizeof h->scratch);
    return holds;
}

static const char move_2[] = "(push 1)\n(declare-fun x () Int)\n(assert (< 0 x))\n(push 1)\n(declare-fun y () Int)\n"
                             "(declare-fun f (Int) Int)\n(assert (forall ((z Int)) (= (f z) z)))\n(assert (= y (f x)))\n";
static const char move_3[] = "(pop 1)\n(push 1)\n(assert (< x 9))\n";
static const char ask_3[] = "(push 1)\n(declare-fun f (Int) Int)\n(assert (forall ((z Int)) (= (f z) z)))\n(declare-fun y () Int)\n"
                            "(push 1)\n(assert (not (< 0 (f y))))\n(check-sat)\n";
static const char end[] = "(pop 1)\n(pop 1)\n";
static const char get_model[] = "(get-model)\n";

static void run_tests(void) {
    static const uint32_t flags[] = {1, 7, UINT32_MAX};
    struct host h;

    start(&h);
    expect("move to node 2", led_to(&h, move_to(&h, 2), LESKOFAR_WRITTEN, move_2, ""));
    expect("move to node 3", led_to(&h, move_to(&h, 3), LESKOFAR_WRITTEN, move_3, ""));
    for (size_t i = 0; i < sizeof flags / sizeof flags[0]; i++) {
        expect("ask at node 3", led_to(&h, ask(&h, 3, GOAL), LESKOFAR_WRITTEN, ask_3, ""));
        expect("unsat", led_to(&h, reply(&h, flags[i], "unsat"), LESKOFAR_PROVED, end, ""));
    }
    expect("ask again", led_to(&h, ask(&h, 3, GOAL), LESKOFAR_WRITTEN, ask_3, ""));
    expect("a failed check", led_to(&h, reply(&h, 0, "unsat"), LESKOFAR_UNPROVED, end, "unsat"));
    expect("ask for a model", led_to(&h, ask(&h, 3, GOAL), LESKOFAR_WRITTEN, ask_3, ""));
    expect("a model is owed", led_to(&h, reply(&h, 1, "sat"), LESKOFAR_WRITTEN, get_model, ""));
    expect("a model", led_to(&h, model(&h, "sat", "(x 1)"), LESKOFAR_UNPROVED, end, "sat\n(x 1)"));
    expect("ask for no model", led_to(&h, ask(&h, 3, GOAL), LESKOFAR_WRITTEN, ask_3, ""));
    expect("a model is owed again", led_to(&h, reply(&h, 1, "unsat\n"), LESKOFAR_WRITTEN, get_model, ""));
    expect("no model", led_to(&h, model(&h, "unsat\n", NULL), LESKOFAR_UNPROVED, end, "unsat\n"));
    expect("a move to the same node", led_to(&h, move_to(&h, 3), LESKOFAR_WRITTEN, "", ""));
    expect("a move to the root", led_to(&h, move_to(&h, 0), LESKOFAR_WRITTEN, end, ""));
}

/* Whether a call was refused and left everything as it was. */
static int left_alone(struct host *h, const uint8_t *image, leskofar_answer answer, uint32_t refusal) {
    return answer.refusal == refusal && answer.result == 0 && answer.text == 0 && answer.reason == 0 &&
           memcmp(h->image, image, sizeof h->image) == 0 && all_are(h->text, sizeof h->text, FILL) &&
           all_are(h->reason, sizeof h->reason, FILL);
}

static void refusal_tests(void) {
    struct host h;
    uint8_t before[LESKOFAR_IMAGE];

    start(&h);
    memcpy(before, h.image, sizeof before);
    expect("no such node", left_alone(&h, before, move_to(&h, SAMPLE_NODES + 1), LESKOFAR_NOT_IN_BOOK));
    expect("no such goal", left_alone(&h, before, ask(&h, 0, SAMPLE_TERMS), LESKOFAR_NOT_IN_BOOK));
    expect("no reply owed", left_alone(&h, before, reply(&h, 1, "unsat"), LESKOFAR_NO_REPLY_OWED));
    expect("no model owed", left_alone(&h, before, model(&h, "sat", NULL), LESKOFAR_NO_MODEL_OWED));
    h.text_len = strlen(move_2) - 1;
    expect("a move without room", left_alone(&h, before, move_to(&h, 2), LESKOFAR_BUFFER_TOO_SHORT));
    h.text_len = sizeof h.text;
    h.book_len--;
    expect("a move on a book cut short", left_alone(&h, before, move_to(&h, 2), LESKOFAR_BAD_CONTENTS));
    h.book_len++;
    h.image[sizeof h.image - 1] ^= 1;
    memcpy(before, h.image, sizeof before);
    expect("a changed image", left_alone(&h, before, move_to(&h, 2), LESKOFAR_NO_SESSION));

    start(&h);
    expect("a question", ask(&h, 1, GOAL).refusal == LESKOFAR_ACCEPTED);
    memset(h.text, FILL, sizeof h.text);
    memcpy(before, h.image, sizeof before);
    expect("a move while a reply is owed", left_alone(&h, before, move_to(&h, 1), LESKOFAR_QUESTION_OPEN));
    h.reason_len = strlen("error") - 1;
    expect("a reason without room", left_alone(&h, before, reply(&h, 0, "error"), LESKOFAR_BUFFER_TOO_SHORT));
    expect("a reply without a reason", led_to(&h, reply(&h, 1, "sat"), LESKOFAR_WRITTEN, get_model, ""));
    memcpy(before, h.image, sizeof before);
    expect("a model for unsat", left_alone(&h, before, model(&h, "unsat", NULL), LESKOFAR_REPLY_IS_UNSAT));
}

/* Calls whose text is two pops. */
static leskofar_answer reply_unsat(struct host *h) {
    return reply(h, 1, "unsat");
}

static leskofar_answer reply_failed(struct host *h) {
    return reply(h, 0, "late");
}

static leskofar_answer give_model(struct host *h) {
    return model(h, "sat", "(x 1)");
}

static leskofar_answer give_no_model(struct host *h) {
    return model(h, "sat", NULL);
}

static leskofar_answer move_to_root(struct host *h) {
    return move_to(h, 0);
}

/* With room for one byte less than the two pops the call is refused and leaves everything as it was; with just that room it is not. */
static void expect_two_pops(const char *name, struct host *h, leskofar_answer (*call)(struct host *), uint32_t result,
                            const char *reason) {
    uint8_t before[LESKOFAR_IMAGE];

    memcpy(before, h->image, sizeof before);
    h->text_len = TWO_POPS - 1;
    expect(name, left_alone(h, before, call(h), LESKOFAR_BUFFER_TOO_SHORT));
    h->text_len = TWO_POPS;
    expect(name, led_to(h, call(h), result, end, reason));
    h->text_len = sizeof h->text;
}

/* Asks, and where a model is to be given replies first. */
static void open_question(struct host *h, int is_model_owed) {
    expect("a question to close", led_to(h, ask(h, 3, GOAL), LESKOFAR_WRITTEN, ask_3, ""));
    if (is_model_owed) {
        expect("its model is owed", led_to(h, reply(h, 1, "sat"), LESKOFAR_WRITTEN, get_model, ""));
    }
}

static void pop_tests(void) {
    struct host h;

    start(&h);
    expect("down two levels", led_to(&h, move_to(&h, 2), LESKOFAR_WRITTEN, move_2, ""));
    expect("and beside", led_to(&h, move_to(&h, 3), LESKOFAR_WRITTEN, move_3, ""));
    open_question(&h, 0);
    expect_two_pops("two pops behind unsat", &h, reply_unsat, LESKOFAR_PROVED, "");
    open_question(&h, 0);
    expect_two_pops("two pops behind a failed check", &h, reply_failed, LESKOFAR_UNPROVED, "late");
    open_question(&h, 1);
    expect_two_pops("two pops behind a model", &h, give_model, LESKOFAR_UNPROVED, "sat\n(x 1)");
    open_question(&h, 1);
    expect_two_pops("two pops behind no model", &h, give_no_model, LESKOFAR_UNPROVED, "sat");
    expect_two_pops("two pops up to the root", &h, move_to_root, LESKOFAR_WRITTEN, "");
}

/* NULL stands for every empty buffer. */
static void null_tests(void) {
    const leskofar_answer nothing = leskofar_move(NULL, 0, NULL, 0, NULL, 0, 0, NULL, 0);
    struct host h;
    uint8_t before[LESKOFAR_IMAGE];

    expect("a move of nothing", nothing.refusal == LESKOFAR_SHORT_SCRATCH);
    expect("no image to begin with", leskofar_fresh(NULL, 0) == LESKOFAR_NO_SESSION);
    start(&h);
    memcpy(before, h.image, sizeof before);
    expect("an image cut short", leskofar_fresh(h.image, sizeof h.image - 1) == LESKOFAR_NO_SESSION);
    expect("no image", left_alone(&h, before,
                                  leskofar_ask(h.book, h.book_len, h.scratch, sizeof h.scratch, NULL, 0, 1, GOAL, h.text, h.text_len),
                                  LESKOFAR_NO_SESSION));
    expect("no text to write",
           led_to(&h, leskofar_move(h.book, h.book_len, h.scratch, sizeof h.scratch, h.image, sizeof h.image, 0, NULL, 0),
                  LESKOFAR_WRITTEN, "", ""));
    expect("a question at the root", ask(&h, 0, GOAL).refusal == LESKOFAR_ACCEPTED);
    memset(h.text, FILL, sizeof h.text);
    expect("no reply and no reason",
           led_to(&h,
                  leskofar_reply(h.book, h.book_len, h.scratch, sizeof h.scratch, h.image, sizeof h.image, 1, NULL, 0, h.text,
                                 h.text_len, NULL, 0),
                  LESKOFAR_WRITTEN, get_model, ""));
    expect("an empty model",
           led_to(&h,
                  leskofar_model(h.book, h.book_len, h.scratch, sizeof h.scratch, h.image, sizeof h.image, NULL, 0, 1, NULL, 0, h.text,
                                 h.text_len, h.reason, h.reason_len),
                  LESKOFAR_UNPROVED, end, "\n"));
}

int main(void) {
    run_tests();
    refusal_tests();
    pop_tests();
    null_tests();
    return close_tests();
}
