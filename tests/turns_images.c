/* The images that a turn is given and writes: with every bit turned, and in memory that may only be read, up to its very end. */
#define _DEFAULT_SOURCE
#include "guarded_pages.h"
#include "turn_book.h"

enum { BITS_PER_BYTE = 8 };

static uint32_t read_number(const uint8_t *at, size_t size) {
    uint32_t number = 0;
    for (size_t i = 0; i < size; i++) {
        number |= (uint32_t)at[i] << BITS_PER_BYTE * i;
    }
    return number;
}

/* What an image spells, and whether it is of the kind. */
static int read_session(const uint8_t *image, const struct kind *kind, struct session *s) {
    s->node = read_number(image + NODE_AT, NUMBER);
    s->goal = read_number(image + GOAL_AT, NUMBER);
    s->owed = read_number(image + OWED_AT, NUMBER);
    for (size_t place = 0; place < PLACES; place++) {
        s->levels[place] = read_number(image + LEVELS_AT + place * kind->level_size, kind->level_size);
    }
    return read_number(image, NUMBER) == kind->number && s->owed < OWED_VALUES;
}

/* Whether the calls leave such a session, by the papers. */
static int is_session(const struct session *s) {
    int is_question = s->owed == NOTHING ? s->goal == 0 : s->goal < records.counts[TERMS];
    if (!is_question || s->node > records.counts[CONTEXTS]) {
        return 0;
    }
    struct session wanted = session_at(s->node, s->goal, s->owed);
    return memcmp(&wanted, s, sizeof wanted) == 0;
}

static uint32_t answer_of(const struct turn *turn, const uint8_t *image, struct session *s) {
    if (!read_session(image, turn->from, s) || !is_session(s)) {
        return LESKOFAR_NO_SESSION;
    }
    uint32_t too_deep = turn->from == &NARROW ? LESKOFAR_NO_SESSION : LESKOFAR_TOO_DEEP_FOR_NARROW;
    return depth_of(s->node) > NARROW_DEPTH ? too_deep : LESKOFAR_ACCEPTED;
}

static void turn_bit(size_t bit) {
    desk.from.at[bit / BITS_PER_BYTE] ^= (uint8_t)(1 << bit % BITS_PER_BYTE);
}

/* An image with a bit turned is another session, or none. */
static void bit_tests(const struct turn *turn, const struct session *s) {
    size_t sessions = 0;
    int are_good = 1;
    set_up(turn, s);
    for (size_t bit = 0; bit < desk.from_len * BITS_PER_BYTE; bit++) {
        struct session other;
        turn_bit(bit);
        uint32_t answer = answer_of(turn, desk.from.at, &other);
        sessions += answer == LESKOFAR_ACCEPTED;
        are_good = are_good && (answer == LESKOFAR_ACCEPTED ? is_turned(&desk, turn, &other) : is_refused(&desk, turn, answer));
        turn_bit(bit);
    }
    expect("images with a bit turned", are_good);
    expect("some of them sessions", sessions > 0);
}

/* Else the test ends in a signal: a refused turn may write its scratch alone. */
static void read_only_tests(const struct turn *turn, const struct session *s, uint32_t refusal) {
    const int to_rights = refusal == LESKOFAR_ACCEPTED ? PROT_READ | PROT_WRITE : PROT_READ;
    set_up(turn, s);
    const struct pages book = pages_of(desk.book, desk.book_len, PROT_READ);
    const struct pages scratch = pages_of(desk.scratch.at, desk.scratch_len, PROT_READ | PROT_WRITE);
    const struct pages from = pages_of(desk.from.at, desk.from_len, PROT_READ);
    const struct pages to = pages_of(desk.to.at, desk.to_len, to_rights);
    uint32_t answer = turn->call(book.at, desk.book_len, scratch.at, desk.scratch_len, from.at, desk.from_len, to.at, desk.to_len);
    expect("memory that is only read", answer == refusal);
    give_back(&book);
    give_back(&scratch);
    give_back(&from);
    give_back(&to);
}

int main(void) {
    const struct session plain = session_at(LITERAL_NODE, 0, NOTHING);
    const struct session asked = session_at(FUNCTION_NODE, CONSTANT_TERM, MODEL);
    const struct session deep = session_at(FIRST_DEEP, CONSTANT_TERM, REPLY);
    small_records(&records);
    for (int i = 0; i < TURNS; i++) {
        const struct turn *turn = &TURN[i];
        bit_tests(turn, &plain);
        bit_tests(turn, &asked);
        read_only_tests(turn, &plain, LESKOFAR_ACCEPTED);
        read_only_tests(turn, &asked, LESKOFAR_ACCEPTED);
        read_only_tests(turn, &deep, i == WIDENING ? LESKOFAR_NO_SESSION : LESKOFAR_TOO_DEEP_FOR_NARROW);
    }
    return close_tests();
}
