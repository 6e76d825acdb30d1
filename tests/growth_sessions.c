/* Sessions that go on while their book grows, as C sees them, also while a reply or a model is owed. */
#include "growth_calls.h"

enum { TEXT_SIZE = 32768, NARROW_DEPTH = 64 };

/* The small book with a literal in node 2, and the same literal once more as a goal. */
enum { LITERAL = 2, LITERAL_NODE = 2, GOAL = SMALL_TERMS + 1 };

/* What a session's calls are lent. */
struct desk {
    uint8_t image[LESKOFAR_IMAGE];
    uint8_t text[TEXT_SIZE];
    uint8_t reason[TEXT_SIZE];
};

struct book {
    uint8_t at[LESKOFAR_BOOK];
    size_t length;
};

static uint8_t scratch[LESKOFAR_SCRATCH];

#define ON(book, desk) (book)->at, (book)->length, scratch, sizeof scratch, (desk)->image, sizeof(desk)->image
#define TEXT_OF(desk) (desk)->text, sizeof(desk)->text
#define REASON_OF(desk) (desk)->reason, sizeof(desk)->reason

static void begin(struct desk *d) {
    memset(d, FILL, sizeof *d);
    (void)leskofar_fresh(d->image, sizeof d->image);
}

static leskofar_answer move_to(const struct book *b, struct desk *d, uint32_t node) {
    return leskofar_move(ON(b, d), node, TEXT_OF(d));
}

static leskofar_answer ask(const struct book *b, struct desk *d, uint32_t node, uint32_t goal) {
    return leskofar_ask(ON(b, d), node, goal, TEXT_OF(d));
}

static leskofar_answer reply(const struct book *b, struct desk *d, uint32_t ok, const char *said) {
    return leskofar_reply(ON(b, d), ok, TEXT(said), TEXT_OF(d), REASON_OF(d));
}

static leskofar_answer model(const struct book *b, struct desk *d, const char *said, uint32_t has_model) {
    return leskofar_model(ON(b, d), TEXT(said), has_model, TEXT("(m)"), TEXT_OF(d), REASON_OF(d));
}

/* Every kind of call, on what is in the old book. */
enum { CALLS_TRIED = 13 };

static leskofar_answer call(int which, const struct book *b, struct desk *d) {
    switch (which) {
    case 0:
    case 1:
    case 2:
        return move_to(b, d, (uint32_t)which);
    case 3:
    case 4:
    case 5:
        return ask(b, d, (uint32_t)which - 3, GOAL);
    case 6:
        return ask(b, d, NODE, FREE);
    case 7:
        return reply(b, d, 1, "unsat");
    case 8:
        return reply(b, d, 1, "sat");
    case 9:
        return reply(b, d, 0, "late");
    case 10:
        return model(b, d, "sat", 1);
    case 11:
        return model(b, d, "sat", 0);
    default:
        return model(b, d, "unsat", 0);
    }
}

/* Sessions to begin with: fresh, at each node, with a reply and with a model owed. */
enum { STATES = 5 };

static void reach(int state, const struct book *b, struct desk *d) {
    leskofar_answer answer = {.refusal = LESKOFAR_ACCEPTED};
    begin(d);
    if (state == 1 || state == 2) {
        answer = move_to(b, d, (uint32_t)state);
    } else if (state > 2) {
        answer = ask(b, d, LITERAL_NODE, GOAL);
    }
    if (state == 4 && answer.refusal == LESKOFAR_ACCEPTED) {
        answer = reply(b, d, 1, "sat");
    }
    expect("a session to begin with", answer.refusal == LESKOFAR_ACCEPTED);
    memset(d->text, FILL, sizeof d->text);
}

/* Whether a call leads to the same on both books, whatever that is, and never to 20. */
static int is_same(int which, int state, const struct book *old, const struct book *grown) {
    static struct desk one;
    static struct desk other;
    reach(state, old, &one);
    other = one;
    leskofar_answer on_old = call(which, old, &one);
    leskofar_answer on_grown = call(which, grown, &other);
    return on_old.refusal == on_grown.refusal && on_old.result == on_grown.result && on_old.text == on_grown.text &&
           on_old.reason == on_grown.reason && memcmp(&one, &other, sizeof one) == 0 && on_old.refusal != LESKOFAR_NO_SESSION;
}

static void same_tests(const char *name, const struct book *old, const struct book *grown) {
    for (int state = 0; state < STATES; state++) {
        for (int which = 0; which < CALLS_TRIED; which++) {
            expect(name, is_same(which, state, old, grown));
        }
    }
}

static void take(struct book *b, const uint8_t *new_book, leskofar_appended answer) {
    expect("it grows", answer.refusal == LESKOFAR_ACCEPTED);
    memcpy(b->at, new_book, answer.length);
    b->length = answer.length;
}

static struct records literals;
static struct lent lent;

/* Each growth by itself; among them a literal more, of the text that a session has declared. */
static void each_growth_tests(void) {
    static struct book old;
    static struct book grown;
    small_records(&literals);
    ADD(&literals, TERMS, LITERAL, X_NAME, BOOL);
    ADD(&literals, CONTEXTS, NODE, SMALL_TERMS, 0);
    ADD(&literals, TERMS, LITERAL, X_NAME, BOOL);
    old.length = write_records(old.at, &literals);
    for (size_t i = 0; i < CALL_COUNT; i++) {
        lend(&lent, &literals);
        take(&grown, lent.new_book, CALLS[i].call(&lent));
        same_tests(CALLS[i].name, &old, &grown);
    }
    lend(&lent, &literals);
    take(&grown, lent.new_book, leskofar_append_term(BOOK(&lent), LITERAL, X_NAME, BOOL, 0, 0, 0, 0, NULL, 0, NULL, 0, NEW(&lent)));
    same_tests("a literal more", &old, &grown);
}

/* The book of a host that lets it grow. */
static struct book newest;

static uint32_t take_newest(leskofar_appended answer) {
    take(&newest, lent.new_book, answer);
    return answer.number;
}

#define NEWEST newest.at, newest.length, scratch, sizeof scratch

static uint32_t grow_point_at(uint32_t parent) {
    return take_newest(leskofar_record_trace_point(NEWEST, parent, TEXT("point"), NEW(&lent)));
}

static uint32_t grow_truth(void) {
    return take_newest(leskofar_append_term(NEWEST, 0, 1, 0, 0, 0, 0, 0, NULL, 0, NULL, 0, NEW(&lent)));
}

/* Whether a call was accepted and wrote just this text. */
static int wrote(const struct desk *d, leskofar_answer answer, const char *text) {
    return answer.refusal == LESKOFAR_ACCEPTED && answer.text == strlen(text) && memcmp(d->text, text, strlen(text)) == 0;
}

/* A book has not room for a point at each depth: the others are plain premises. The last is a point. */
enum { EVERY = 4 };

static int is_point_below(uint32_t depth) {
    return depth % EVERY == (MOST_DEPTH - 1) % EVERY;
}

/* A node below another of this depth. */
static uint32_t grow_at(uint32_t parent, uint32_t depth) {
    if (is_point_below(depth)) {
        return grow_point_at(parent);
    }
    uint32_t term = grow_truth();
    return take_newest(leskofar_extend(NEWEST, parent, term, 0, NULL, 0, NEW(&lent)));
}

/* What a move down to that node and a question about `true` there write. */
static void question_text(char *text, size_t size, uint32_t depth) {
    static const char question[] = "(push 1)\n(push 1)\n(assert (not true))\n(check-sat)\n";
    if (is_point_below(depth)) {
        (void)snprintf(text, size, "(push 1)\n(declare-fun probe%%%u () Bool)\n(assert (= probe%%%u true))\n%s", (unsigned)depth,
                       (unsigned)depth, question);
    } else {
        (void)snprintf(text, size, "(push 1)\n(assert true)\n%s", question);
    }
}

static int is_fresh_ones(const struct desk *d, uint32_t node) {
    static struct desk fresh;
    begin(&fresh);
    return move_to(&newest, &fresh, node).refusal == LESKOFAR_ACCEPTED && memcmp(fresh.image, d->image, sizeof d->image) == 0;
}

/* A question at a node, from its text to its model. At a point the book grows meanwhile: gives the node that came beside it, else 0. */
static uint32_t question_at(struct desk *d, uint32_t node, uint32_t depth, uint32_t truth) {
    static const char two_pops[] = "(pop 1)\n(pop 1)\n";
    char wanted[TEXT_SIZE];
    uint32_t beside = 0;
    question_text(wanted, sizeof wanted, depth);
    expect("a question at a new node", wrote(d, ask(&newest, d, node, truth), wanted));
    if (is_point_below(depth)) {
        beside = grow_point_at(0);
        expect("no move while a reply is owed", move_to(&newest, d, beside).refusal == LESKOFAR_QUESTION_OPEN);
    }
    expect("its reply", wrote(d, reply(&newest, d, 1, "sat"), "(get-model)\n"));
    if (is_point_below(depth)) {
        (void)grow_truth();
    }
    expect("no question while a model is owed", ask(&newest, d, node, truth).refusal == LESKOFAR_QUESTION_OPEN);
    expect("its model", wrote(d, model(&newest, d, "sat", 1), two_pops));
    expect("the fresh one's", is_fresh_ones(d, node));
    return beside;
}

/* A node below the session's, which is kept in the narrow kind while the book grows, as long as it is not too deep for that. */
static uint32_t grow_below(struct desk *d, uint32_t parent, uint32_t depth) {
    uint8_t narrow[LESKOFAR_NARROW_IMAGE];
    const uint32_t refusal = depth <= NARROW_DEPTH ? LESKOFAR_ACCEPTED : LESKOFAR_TOO_DEEP_FOR_NARROW;
    expect("a session to be kept", leskofar_narrow(NEWEST, d->image, sizeof d->image, narrow, sizeof narrow) == refusal);
    uint32_t node = grow_at(parent, depth);
    if (refusal == LESKOFAR_ACCEPTED) {
        memset(d->image, FILL, sizeof d->image);
        expect("it goes on with the grown book",
               leskofar_widen(NEWEST, narrow, sizeof narrow, d->image, sizeof d->image) == LESKOFAR_ACCEPTED);
    }
    return node;
}

/* One session from the book without records down to the greatest depth; the book grows before each call. */
static void chain_tests(void) {
    static struct desk d;
    uint32_t node = 0;
    uint32_t beside = 0;
    memset(&literals, 0, sizeof literals);
    lend(&lent, &literals);
    newest.length = write_records(newest.at, &literals);
    begin(&d);
    uint32_t truth = grow_truth();
    for (uint32_t depth = 0; depth < MOST_DEPTH; depth++) {
        node = grow_below(&d, node, depth);
        beside = question_at(&d, node, depth, truth);
    }
    expect("401 deep", leskofar_record_trace_point(NEWEST, node, TEXT("point"), NEW(&lent)).refusal == LESKOFAR_TOO_DEEP);
    leskofar_answer answer = move_to(&newest, &d, beside);
    expect("up to the root and down beside", answer.refusal == LESKOFAR_ACCEPTED && is_fresh_ones(&d, beside));
}

/* A session at a new node is none of the old book. */
static void old_book_tests(void) {
    static struct book old;
    static struct desk d;
    old = newest;
    begin(&d);
    uint32_t node = grow_point_at(0);
    expect("a move to a new node", move_to(&newest, &d, node).refusal == LESKOFAR_ACCEPTED);
    expect("the old book has no such node", move_to(&old, &d, node).refusal == LESKOFAR_NOT_IN_BOOK);
    expect("nor such a session", move_to(&old, &d, 0).refusal == LESKOFAR_NO_SESSION);
    expect("the new book has", move_to(&newest, &d, 0).refusal == LESKOFAR_ACCEPTED);
}

int main(void) {
    each_growth_tests();
    chain_tests();
    old_book_tests();
    return close_tests();
}
