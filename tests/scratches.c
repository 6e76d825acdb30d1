/*
 * Every call that takes a scratch, with scratches of many lengths beside pages that may not be touched. With one that is too short the call
 * is refused and writes to none of its bytes. With a longer one it answers as with the shortest, and all of its bytes are 0 afterwards.
 */
#define _DEFAULT_SOURCE
#include "caught_touches.h"
#include "guarded_pages.h"
#include "refused_books.h"
#include "scratch_calls.h"

enum { SHORTEST = 128, BITS_PER_BYTE = 8, MOST_TERMS = 1024, NAME_SIZE = 256 };

_Static_assert(LESKOFAR_SCRATCH == SHORTEST, "the least scratch has 128 bytes");
_Static_assert(LESKOFAR_SCRATCH * BITS_PER_BYTE == MOST_TERMS, "it has a bit for each term");

static const size_t LENGTHS[] = {0, 1, 127, 128, 129, 1024, 5000};
enum { LENGTH_COUNT = sizeof LENGTHS / sizeof LENGTHS[0] };

/* What a scratch holds before a call, in all its bytes. */
static const uint8_t DIRT[] = {0x00, FILL, (uint8_t)~FILL, 0xFF};
enum { DIRT_COUNT = sizeof DIRT / sizeof DIRT[0] };

static const char *const EDGE[EDGES] = {[AT_START] = "start", [AT_END] = "end"};

/* A call with what it is lent beside its scratch: the small book or one that is refused, and some room for a text. */
struct given {
    const struct scratch_call *call;
    const struct refused_book *refused; /* NULL for the small book */
    size_t room;
};

static struct records small;
static struct given given;

static void lend_given(void) {
    static struct records r;
    r = small;
    if (given.refused == NULL) {
        lend(&lent, &r);
    } else {
        given.refused->lend(&lent, &r);
    }
    text_room = given.room;
    lay_session(given.call->session);
}

static void call_given(void) {
    make_call(given.call);
}

/* What the call leaves where it is refused: everything as it was. */
static struct left left_alone(uint32_t refusal) {
    lend_given();
    ANSWER(refusal);
    return left;
}

static int is_left(const struct left *wanted) {
    return memcmp(&left, wanted, sizeof left) == 0;
}

/* Whether of pages full of dirt just these bytes of the scratch have been cleared. */
static int are_cleared(const struct pages *p, size_t cleared, uint8_t dirt) {
    const size_t before = (size_t)(p->at - p->held);
    return all_are(p->held, before, dirt) && all_are(p->at, cleared, 0) &&
           all_are(p->at + cleared, p->held_size - before - cleared, dirt);
}

/* One thing that has to hold of the given call with a scratch. */
static void expect_of(size_t length, enum edge edge, const char *what, int holds) {
    char name[NAME_SIZE];
    unsigned refused = given.refused == NULL ? LESKOFAR_ACCEPTED : (unsigned)given.refused->refusal;
    int written = snprintf(name, sizeof name, "%s, book refused %u, room for %zu, a scratch of %zu at the %s of its pages: %s",
                           given.call->name, refused, given.room, length, EDGE[edge], what);
    stop_if(written < 0 || written >= NAME_SIZE, "name a test");
    expect(name, holds);
}

/* The given call with a scratch of this length; one that is too short can only be read. */
static void scratch_test(size_t length, enum edge edge, const struct left *wanted) {
    const size_t cleared = length < SHORTEST ? 0 : length;
    const struct pages p = pages_for(length, edge);
    int comes_to_end = 1;
    int is_answered = 1;
    int is_cleared = 1;
    for (int i = 0; i < DIRT_COUNT; i++) {
        allow(&p, PROT_READ | PROT_WRITE);
        memset(p.held, DIRT[i], p.held_size);
        lend_given();
        lent.scratch_at = p.at;
        lent.scratch_len = length;
        allow(&p, length < SHORTEST ? PROT_READ : PROT_READ | PROT_WRITE);
        comes_to_end = comes_to_its_end(call_given) && comes_to_end;
        is_answered = is_left(wanted) && is_answered;
        is_cleared = are_cleared(&p, cleared, DIRT[i]) && is_cleared;
    }
    give_back(&p);
    expect_of(length, edge, "touches nothing that it may not", comes_to_end);
    expect_of(length, edge, "answers and writes what it must", is_answered);
    expect_of(length, edge, "its bytes", is_cleared);
}

/* The given call with every length; this is what it leaves with one that is long enough. */
static void length_tests(const struct left *wanted) {
    static struct left too_short;
    too_short = left_alone(LESKOFAR_SHORT_SCRATCH);
    for (int i = 0; i < LENGTH_COUNT; i++) {
        for (enum edge edge = 0; edge < EDGES; edge++) {
            scratch_test(LENGTHS[i], edge, LENGTHS[i] < SHORTEST ? &too_short : wanted);
        }
    }
    lend_given();
    lent.scratch_at = NULL;
    lent.scratch_len = 0;
    expect_of(0, AT_START, "no scratch at all", comes_to_its_end(call_given) && is_left(&too_short));
}

/* Whether an accepted call has written just its text. */
static int has_text(const struct left *l, const char *text) {
    const size_t length = text == NULL ? 0 : strlen(text);
    return (length == 0 || memcmp(l->text, text, length) == 0) && all_are(l->text + length, sizeof l->text - length, FILL);
}

static void accepted_tests(const struct scratch_call *call) {
    static struct left wanted;
    given = (struct given){call, NULL, TEXT_SIZE};
    lend_given();
    expect("a scratch just long enough", comes_to_its_end(call_given));
    wanted = left;
    expect(call->name, wanted.answer[0] == LESKOFAR_ACCEPTED && has_text(&wanted, call->text));
    length_tests(&wanted);
}

static void refused_tests(const struct scratch_call *call) {
    static struct left wanted;
    for (int i = 0; i < REFUSED_BOOK_COUNT; i++) {
        if (REFUSED_BOOKS[i].refusal != LESKOFAR_SHORT_SCRATCH) {
            given = (struct given){call, &REFUSED_BOOKS[i], TEXT_SIZE};
            wanted = left_alone(REFUSED_BOOKS[i].refusal);
            length_tests(&wanted);
        }
    }
    if (call->text != NULL) {
        given = (struct given){call, NULL, 0};
        wanted = left_alone(LESKOFAR_BUFFER_TOO_SHORT);
        length_tests(&wanted);
    }
}

int main(void) {
    traced_records(&small);
    bring_sessions(&small);
    for (int i = 0; i < SCRATCH_CALL_COUNT; i++) {
        accepted_tests(&SCRATCH_CALLS[i]);
        refused_tests(&SCRATCH_CALLS[i]);
    }
    return close_tests();
}
