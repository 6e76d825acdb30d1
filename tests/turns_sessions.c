/*
 * Document 01's session in the narrow kind, byte for byte as it was written before there was another: the calls go on with it once it is
 * widened, and leave what turns back into it.
 */
#include "expect.h"
#include "sample_book.h"
#include <leskofar.h>

enum { FILL = 0xA5, TEXT_SIZE = 512 };

/* What the session is in, and who has led it there. */
enum { FRESH, AT_2, AT_3, REPLY_OWED, MODEL_OWED, STATES };

/* All bytes that are not 0, from the first on: kind, node, goal, what is owed; then the levels of x, y, f and the axiom. */
static const uint8_t NARROW[STATES][LESKOFAR_NARROW_IMAGE] = {
    [FRESH] = {[0] = 1},
    [AT_2] = {[0] = 1, [4] = 2, [80] = 1, [81] = 2, [336] = 2, [464] = 2},
    [AT_3] = {[0] = 1, [4] = 3, [80] = 1},
    [REPLY_OWED] = {[0] = 1, [4] = 3, [8] = 18, [12] = 1, [80] = 1},
    [MODEL_OWED] = {[0] = 1, [4] = 3, [8] = 18, [12] = 2, [80] = 1},
};

/* The same with two bytes for each level. */
static const uint8_t WIDE[STATES][LESKOFAR_IMAGE] = {
    [FRESH] = {[0] = 2},
    [AT_2] = {[0] = 2, [4] = 2, [144] = 1, [146] = 2, [656] = 2, [912] = 2},
    [AT_3] = {[0] = 2, [4] = 3, [144] = 1},
    [REPLY_OWED] = {[0] = 2, [4] = 3, [8] = 18, [12] = 1, [144] = 1},
    [MODEL_OWED] = {[0] = 2, [4] = 3, [8] = 18, [12] = 2, [144] = 1},
};

static uint8_t book[BOOK_SIZE];
static size_t book_len;
static uint8_t scratch[LESKOFAR_SCRATCH];

/* What a call leaves behind it. */
struct desk {
    uint8_t image[LESKOFAR_IMAGE];
    uint8_t text[TEXT_SIZE];
    uint8_t reason[TEXT_SIZE];
    leskofar_answer answer;
};

#define BOOK book, book_len, scratch, sizeof scratch
#define IMAGE_OF(d) (d)->image, sizeof(d)->image
#define TEXT_OF(d) (d)->text, sizeof(d)->text
#define REASON_OF(d) (d)->reason, sizeof(d)->reason

static const uint8_t SAT[] = {'s', 'a', 't'};
static const uint8_t UNSAT[] = {'u', 'n', 's', 'a', 't'};

/* Every kind of call. */
enum { MOVES = SAMPLE_NODES + 1, ASKS = 2 * MOVES, CALLS = ASKS + 4 };

static leskofar_answer call(uint32_t which, struct desk *d) {
    if (which < MOVES) {
        return leskofar_move(BOOK, IMAGE_OF(d), which, TEXT_OF(d));
    }
    if (which < ASKS) {
        return leskofar_ask(BOOK, IMAGE_OF(d), which - MOVES, GOAL, TEXT_OF(d));
    }
    switch (which - ASKS) {
    case 0:
        return leskofar_reply(BOOK, IMAGE_OF(d), 1, UNSAT, sizeof UNSAT, TEXT_OF(d), REASON_OF(d));
    case 1:
        return leskofar_reply(BOOK, IMAGE_OF(d), 1, SAT, sizeof SAT, TEXT_OF(d), REASON_OF(d));
    case 2:
        return leskofar_reply(BOOK, IMAGE_OF(d), 0, SAT, sizeof SAT, TEXT_OF(d), REASON_OF(d));
    default:
        return leskofar_model(BOOK, IMAGE_OF(d), SAT, sizeof SAT, 1, UNSAT, sizeof UNSAT, TEXT_OF(d), REASON_OF(d));
    }
}

/* A desk on which nothing has been written yet. */
static void clear(struct desk *d) {
    memset(d, FILL, sizeof *d);
    memset(&d->answer, 0, sizeof d->answer);
}

/* The state as the calls themselves lead to it. */
static void reach(int state, struct desk *d) {
    clear(d);
    uint32_t refusal = leskofar_fresh(IMAGE_OF(d));
    if (state == AT_2) {
        refusal = call(2, d).refusal;
    } else if (state == AT_3) {
        refusal = call(3, d).refusal;
    } else if (state > AT_3) {
        refusal = call(MOVES + 3, d).refusal;
    }
    if (state == MODEL_OWED && refusal == LESKOFAR_ACCEPTED) {
        refusal = call(ASKS + 1, d).refusal;
    }
    expect("a state that the calls lead to", refusal == LESKOFAR_ACCEPTED && memcmp(d->image, WIDE[state], sizeof d->image) == 0);
}

/* Either image turned into the other. */
static void image_tests(int state) {
    uint8_t wide[LESKOFAR_IMAGE];
    uint8_t narrow[LESKOFAR_NARROW_IMAGE];
    memset(wide, FILL, sizeof wide);
    memset(narrow, FILL, sizeof narrow);
    expect("widened", leskofar_widen(BOOK, NARROW[state], sizeof NARROW[state], wide, sizeof wide) == LESKOFAR_ACCEPTED &&
                          memcmp(wide, WIDE[state], sizeof wide) == 0);
    expect("turned back", leskofar_narrow(BOOK, wide, sizeof wide, narrow, sizeof narrow) == LESKOFAR_ACCEPTED &&
                              memcmp(narrow, NARROW[state], sizeof narrow) == 0);
}

/* Whether a call leads to the same with the widened image as with the calls' own, and what that leaves turns there and back. */
static int is_same(int state, uint32_t which) {
    static struct desk own;
    static struct desk widened;
    uint8_t narrow[LESKOFAR_NARROW_IMAGE];
    uint8_t again[LESKOFAR_IMAGE];
    reach(state, &own);
    memset(own.text, FILL, sizeof own.text);
    clear(&widened);
    uint32_t refusal = leskofar_widen(BOOK, NARROW[state], sizeof NARROW[state], IMAGE_OF(&widened));
    own.answer = call(which, &own);
    widened.answer = call(which, &widened);
    return refusal == LESKOFAR_ACCEPTED && memcmp(&own, &widened, sizeof own) == 0 && own.answer.refusal != LESKOFAR_NO_SESSION &&
           leskofar_narrow(BOOK, IMAGE_OF(&widened), narrow, sizeof narrow) == LESKOFAR_ACCEPTED &&
           leskofar_widen(BOOK, narrow, sizeof narrow, again, sizeof again) == LESKOFAR_ACCEPTED &&
           memcmp(again, widened.image, sizeof again) == 0;
}

/* No call but the widening takes a narrow image, which a refused call leaves as it was. */
static void narrow_tests(int state, uint32_t which) {
    static struct desk d;
    static struct desk before;
    clear(&d);
    memcpy(d.image, NARROW[state], sizeof NARROW[state]);
    before = d;
    expect("a narrow image, and bytes behind it", call(which, &d).refusal == LESKOFAR_NO_SESSION && memcmp(&d, &before, sizeof d) == 0);
}

/* The same at its own length. */
static void narrow_length_tests(void) {
    uint8_t image[LESKOFAR_NARROW_IMAGE];
    uint8_t text[TEXT_SIZE];
    memcpy(image, NARROW[AT_2], sizeof image);
    expect("a narrow image to move", leskofar_move(BOOK, image, sizeof image, 3, text, sizeof text).refusal == LESKOFAR_NO_SESSION);
    expect("a narrow image to ask", leskofar_ask(BOOK, image, sizeof image, 3, GOAL, text, sizeof text).refusal == LESKOFAR_NO_SESSION);
    expect("no fresh image of that length", leskofar_fresh(image, sizeof image) == LESKOFAR_NO_SESSION);
    expect("nor is it touched", memcmp(image, NARROW[AT_2], sizeof image) == 0);
}

/* The widened session's text, letter by letter. */
static void text_tests(void) {
    static const char wanted[] = "(pop 1)\n(push 1)\n(assert (< x 9))\n";
    static struct desk d;
    clear(&d);
    expect("at node 2", leskofar_widen(BOOK, NARROW[AT_2], sizeof NARROW[AT_2], IMAGE_OF(&d)) == LESKOFAR_ACCEPTED);
    leskofar_answer answer = call(3, &d);
    expect("on to node 3", answer.refusal == LESKOFAR_ACCEPTED && answer.text == strlen(wanted) &&
                               memcmp(d.text, wanted, strlen(wanted)) == 0 && memcmp(d.image, WIDE[AT_3], sizeof d.image) == 0);
}

int main(void) {
    book_len = sample_book(book);
    for (int state = FRESH; state < STATES; state++) {
        image_tests(state);
        for (uint32_t which = 0; which < CALLS; which++) {
            expect("a call on a widened session", is_same(state, which));
            narrow_tests(state, which);
        }
    }
    narrow_length_tests();
    text_tests();
    return close_tests();
}
