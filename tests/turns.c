/* The two turns as C sees them, each alike: its answers in their order, and the lengths of its buffers. */
#include "turn_book.h"

/* Every node that is not too deep, without a question and with one. */
static void node_tests(const struct turn *turn) {
    for (uint32_t node = ROOT; node <= LAST_NARROW; node++) {
        for (uint32_t owed = NOTHING; owed < OWED_VALUES; owed++) {
            struct session s = session_at(node, owed == NOTHING ? 0 : FUNCTION_TERM, owed);
            set_up(turn, &s);
            expect(turn->name, is_turned(&desk, turn, &s));
        }
    }
}

/* Faults of the book. */
static void add_letters(struct records *r) {
    memset(r->letters + strlen(r->letters), 'a', MOST_LETTERS + 1 - strlen(r->letters));
}

static void spoil_letter(struct records *r) {
    r->letters[0] = 0x1F;
}

static void use_term_twice(struct records *r) {
    r->numbers[CONTEXTS][1] = FIRST_TRUE; /* of node 1 */
}

static void make_too_deep(struct records *r) {
    add_below(r, MOST_DEPTH + 2);
}

static void (*const ADD_FAULT[])(struct records *) = {
    [LESKOFAR_COUNT_OVER_LIMIT] = add_letters,
    [LESKOFAR_FIELD_OUT_OF_RANGE] = spoil_letter,
    [LESKOFAR_NO_FOREST] = use_term_twice,
    [LESKOFAR_TOO_DEEP] = make_too_deep,
};

/* Each fault by itself, with a session of the book. */
static void fault_tests(const struct turn *turn, const struct session *s) {
    for (uint32_t refusal = LESKOFAR_COUNT_OVER_LIMIT; refusal <= LESKOFAR_TOO_DEEP; refusal++) {
        small_records(&records);
        ADD_FAULT[refusal](&records);
        set_up(turn, s);
        expect(turn->name, is_refused(&desk, turn, refusal));
    }
    small_records(&records);
    set_up(turn, s);
    desk.book_len--;
    expect(turn->name, is_refused(&desk, turn, LESKOFAR_BAD_CONTENTS));
    desk.book_len = 0;
    expect(turn->name, is_refused(&desk, turn, LESKOFAR_BAD_CONTENTS));
}

/* What is laid is no session. Faults of book and scratch come one after the other: the newest is told before all older ones. */
static void order_tests(const struct turn *turn) {
    expect(turn->name, is_refused(&desk, turn, LESKOFAR_NO_SESSION));
    for (uint32_t refusal = LESKOFAR_TOO_DEEP; refusal >= LESKOFAR_COUNT_OVER_LIMIT; refusal--) {
        ADD_FAULT[refusal](&records);
        desk.book_len = write_records(desk.book, &records);
        expect(turn->name, is_refused(&desk, turn, refusal));
    }
    desk.book_len--;
    expect(turn->name, is_refused(&desk, turn, LESKOFAR_BAD_CONTENTS));
    desk.scratch_len = LESKOFAR_SCRATCH - 1;
    expect(turn->name, is_refused(&desk, turn, LESKOFAR_SHORT_SCRATCH));
    desk.scratch_len = 0;
    expect(turn->name, is_refused(&desk, turn, LESKOFAR_SHORT_SCRATCH));
    small_records(&records);
}

/* What is refused 20: each length, the kind, what is owed, the goal, the node and a level, one off. */
static void no_session_tests(const struct turn *turn, const struct session *s) {
    static const size_t places[] = {0, NODE_AT, GOAL_AT + 1, OWED_AT + 1, LEVELS_AT, LEVELS_AT + PLACES - 1};
    for (size_t i = 0; i < sizeof places / sizeof places[0]; i++) {
        set_up(turn, s);
        desk.from.at[places[i]] ^= 1;
        order_tests(turn);
    }
    set_up(turn, s);
    put_number(desk.from.at, turn->to->number);
    order_tests(turn);
    set_up(turn, s);
    desk.from_len--;
    order_tests(turn);
    set_up(turn, s);
    desk.to_len--;
    order_tests(turn);
}

/* A session 65 deep: 24 where it turns back, behind all others, and 20 where it is spelled narrow. */
static void deep_tests(void) {
    for (uint32_t owed = NOTHING; owed < OWED_VALUES; owed++) {
        struct session s = session_at(FIRST_DEEP, owed == NOTHING ? 0 : FUNCTION_TERM, owed);
        set_up(&TURN[TURNING_BACK], &s);
        expect("65 deep", is_refused(&desk, &TURN[TURNING_BACK], LESKOFAR_TOO_DEEP_FOR_NARROW));
        fault_tests(&TURN[TURNING_BACK], &s);
        no_session_tests(&TURN[TURNING_BACK], &s);
        set_up(&TURN[WIDENING], &s);
        order_tests(&TURN[WIDENING]);
        no_session_tests(&TURN[WIDENING], &s);
    }
}

/* Each length around both kinds' and around the words, in either place; the first bytes are as they must be. */
static void length_tests(const struct turn *turn, const struct session *s) {
    static const size_t lengths[] = {0, 1, LEVELS_AT - 1, LEVELS_AT, LEVELS_AT + 1,
                                     LESKOFAR_NARROW_IMAGE - 1, LESKOFAR_NARROW_IMAGE, LESKOFAR_NARROW_IMAGE + 1,
                                     LESKOFAR_IMAGE - 1, LESKOFAR_IMAGE, LESKOFAR_IMAGE + 1};
    const size_t count = sizeof lengths / sizeof lengths[0];
    for (size_t i = 0; i < count * count; i++) {
        set_up(turn, s);
        desk.from_len = lengths[i / count];
        desk.to_len = lengths[i % count];
        int is_good = desk.from_len == turn->from->size && desk.to_len == turn->to->size;
        expect(turn->name, is_good ? is_turned(&desk, turn, s) : is_refused(&desk, turn, LESKOFAR_NO_SESSION));
    }
}

/* A longer scratch is all zero afterwards, and nothing behind it. */
static void scratch_tests(const struct turn *turn, const struct session *s) {
    for (size_t more = 0; more <= GUARD; more++) {
        set_up(turn, s);
        desk.scratch_len = LESKOFAR_SCRATCH + more;
        expect(turn->name, is_turned(&desk, turn, s));
        desk.to_len--;
        expect(turn->name, is_refused(&desk, turn, LESKOFAR_NO_SESSION));
    }
}

/* NULL stands for every empty buffer. */
static void null_tests(const struct turn *turn, const struct session *s) {
    uint8_t *scratch = desk.scratch.at;
    set_up(turn, s);
    expect("nothing at all", turn->call(NULL, 0, NULL, 0, NULL, 0, NULL, 0) == LESKOFAR_SHORT_SCRATCH);
    expect("a scratch alone", turn->call(NULL, 0, scratch, LESKOFAR_SCRATCH, NULL, 0, NULL, 0) == LESKOFAR_BAD_CONTENTS);
    expect("no image", turn->call(desk.book, desk.book_len, scratch, LESKOFAR_SCRATCH, NULL, 0, NULL, 0) == LESKOFAR_NO_SESSION);
    expect("no image to turn",
           turn->call(desk.book, desk.book_len, scratch, LESKOFAR_SCRATCH, NULL, 0, desk.to.at, desk.to_len) == LESKOFAR_NO_SESSION);
    expect("no other image",
           turn->call(desk.book, desk.book_len, scratch, LESKOFAR_SCRATCH, desk.from.at, desk.from_len, NULL, 0) == LESKOFAR_NO_SESSION);
    expect("and the scratch is cleared", all_are(scratch, LESKOFAR_SCRATCH, 0));
}

int main(void) {
    const struct session plain = session_at(LITERAL_NODE, 0, NOTHING);
    const struct session asked = session_at(FUNCTION_NODE, CONSTANT_TERM, MODEL);
    small_records(&records);
    for (int i = 0; i < TURNS; i++) {
        const struct turn *turn = &TURN[i];
        node_tests(turn);
        fault_tests(turn, &plain);
        no_session_tests(turn, &plain);
        no_session_tests(turn, &asked);
        length_tests(turn, &asked);
        scratch_tests(turn, &asked);
        null_tests(turn, &plain);
    }
    deep_tests();
    return close_tests();
}
