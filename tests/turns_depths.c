/* Sessions at every depth, in a book that declares something at each level: the images that moves leave, and what the turns say of them. */
#include "turn_calls.h"

enum { TEXT_SIZE = 65536 };

/*
 * The row of nodes below each other, each with a built-in application of what it declares: functions with an axiom each from level 1 on,
 * constants from the deepest level up, the first with a type each, and literals at every third level. Each literal has its own name.
 */
enum { ROW = MOST_DEPTH, ROW_FUNCTIONS = 128, ROW_CONSTANTS = 256, ROW_TYPES = 64, ROW_LITERALS = 108, EVERY = 3, ANY_NAME = 0 };

/* Behind them nodes that declare nothing, which are not as deep as their numbers say: below a high node, and where narrow sessions end. */
enum { BESIDE_HIGH = ROW + 1, BESIDE_NARROW, BESIDE_DEEP, HIGH = 10 };

static struct records records;
static struct desk desk;
static uint8_t text[TEXT_SIZE];

/* By place, the level where the row declares a record. */
static uint32_t level_at[PLACES];

/* The last term, which no node says: a literal that only a question declares. */
static uint32_t goal;

static void add_argument(struct records *r, uint32_t kind, uint32_t number) {
    ADD(r, LISTS, (uint32_t)r->counts[TERMS]);
    ADD(r, TERMS, kind, number);
}

static void add_node(struct records *r, uint32_t parent, size_t first_argument) {
    ADD(r, CONTEXTS, parent, (uint32_t)r->counts[TERMS]);
    ADD(r, TERMS, BUILT_IN, ANY_NAME, (uint32_t)first_argument, (uint32_t)(r->counts[LISTS] - first_argument));
}

/* A node of the row, with the levels of what it declares. */
static void add_level(struct records *r, uint32_t level) {
    const size_t first = r->counts[LISTS];
    const uint32_t from_below = ROW - level;
    if (level <= ROW_FUNCTIONS) {
        level_at[FUNCTION_PLACE + level - 1] = level_at[AXIOM_PLACE + level - 1] = level;
        add_argument(r, FUNCTION, level - 1);
    }
    if (from_below < ROW_CONSTANTS) {
        level_at[CONSTANT_PLACE + from_below] = level;
        add_argument(r, ID, from_below);
    }
    if (from_below < ROW_TYPES) {
        level_at[TYPE_PLACE + from_below] = level;
    }
    if (level % EVERY == 1 && level / EVERY < ROW_LITERALS) {
        level_at[LITERAL_PLACE + r->counts[TERMS]] = level;
        add_argument(r, LITERAL, level / EVERY);
    }
    add_node(r, level - 1, first);
}

static void make_records(struct records *r) {
    memset(r, 0, sizeof *r);
    memset(r->letters, 'a', ROW_LITERALS + 1);
    for (uint32_t name = 0; name <= ROW_LITERALS; name++) {
        ADD(r, NAMES, 0, name + 1);
    }
    for (uint32_t function = 0; function < ROW_FUNCTIONS; function++) {
        ADD(r, FUNCTIONS, ANY_NAME, BOOL, 0, 0, function, 1);
        ADD(r, AXIOMS, function, function, 1);
        ADD(r, LISTS, function);
        ADD(r, TERMS, BOOLEAN, 1);
    }
    for (uint32_t constant = 0; constant < ROW_CONSTANTS; constant++) {
        ADD(r, CONSTANTS, ANY_NAME, constant < ROW_TYPES ? USER_TYPE + constant : BOOL);
    }
    for (uint32_t type = 0; type < ROW_TYPES; type++) {
        ADD(r, TYPES, ANY_NAME);
    }
    for (uint32_t level = 1; level <= ROW; level++) {
        add_level(r, level);
    }
    add_node(r, HIGH, r->counts[LISTS]);
    add_node(r, NARROW_DEPTH - 1, r->counts[LISTS]);
    add_node(r, NARROW_DEPTH, r->counts[LISTS]);
    goal = (uint32_t)r->counts[TERMS];
    ADD(r, TERMS, LITERAL, ROW_LITERALS, BOOL);
}

/* The session at a node that has so many nodes of the row above it, itself among them. */
static struct session session_below(uint32_t node, uint32_t row) {
    struct session s = {.node = node};
    for (size_t place = 0; place < PLACES; place++) {
        s.levels[place] = level_at[place] <= row ? level_at[place] : 0;
    }
    return s;
}

#define BOOK desk.book, desk.book_len, desk.scratch.at, LESKOFAR_SCRATCH

/* Whether an image spells this session. */
static int is_spelled(const uint8_t image[LESKOFAR_IMAGE], const struct session *s) {
    uint8_t wanted[LESKOFAR_IMAGE];
    spell(wanted, &WIDE, s);
    return memcmp(image, wanted, sizeof wanted) == 0;
}

/* A move, and whether it leaves this session. */
static int is_moved(uint8_t image[LESKOFAR_IMAGE], const struct session *s) {
    return leskofar_move(BOOK, image, LESKOFAR_IMAGE, s->node, text, sizeof text).refusal == LESKOFAR_ACCEPTED && is_spelled(image, s);
}

/* A session that turns either way. */
static void expect_both(const char *name, const struct session *s) {
    for (int i = 0; i < TURNS; i++) {
        lay(&desk, &TURN[i], s);
        expect(name, is_turned(&desk, &TURN[i], s));
    }
}

/* One that is too deep for the narrow kind, also where its levels can be spelled. */
static void expect_neither(const char *name, const struct session *s) {
    lay(&desk, &TURN[TURNING_BACK], s);
    expect(name, is_refused(&desk, &TURN[TURNING_BACK], LESKOFAR_TOO_DEEP_FOR_NARROW));
    lay(&desk, &TURN[WIDENING], s);
    expect(name, is_refused(&desk, &TURN[WIDENING], LESKOFAR_NO_SESSION));
}

static void expect_turns(const char *name, const struct session *s, uint32_t depth) {
    if (depth <= NARROW_DEPTH) {
        expect_both(name, s);
    } else {
        expect_neither(name, s);
    }
}

/* One session from the root to the end of the row, then beside it, and up. */
static void row_tests(void) {
    static const struct {
        uint32_t node;
        uint32_t row;
        uint32_t depth;
    } beside[] = {{BESIDE_HIGH, HIGH, HIGH + 1},
                  {BESIDE_NARROW, NARROW_DEPTH - 1, NARROW_DEPTH},
                  {BESIDE_DEEP, NARROW_DEPTH, NARROW_DEPTH + 1}};
    uint8_t image[LESKOFAR_IMAGE];
    expect("a fresh session", leskofar_fresh(image, sizeof image) == LESKOFAR_ACCEPTED);
    for (uint32_t depth = 0; depth <= ROW; depth++) {
        struct session s = session_below(depth, depth);
        expect("down the row", is_moved(image, &s));
        expect_turns("at each node of the row", &s, depth);
    }
    for (size_t i = 0; i < sizeof beside / sizeof beside[0]; i++) {
        struct session s = session_below(beside[i].node, beside[i].row);
        expect("beside the row", is_moved(image, &s));
        expect_turns("at each node beside it", &s, beside[i].depth);
    }
    const struct session root = session_below(0, 0);
    expect("up to the root", is_moved(image, &root));
}

/* A level's two bytes, by the number of a constant. */
static const uint8_t *level_bytes(const uint8_t *image, uint32_t constant) {
    return image + LEVELS_AT + WIDE_LEVEL * (CONSTANT_PLACE + constant);
}

/* Levels around the first that needs its high byte, byte by byte; with another high byte there is no session. */
static void high_byte_tests(void) {
    static const struct {
        uint32_t level;
        uint8_t bytes[WIDE_LEVEL];
    } known[] = {{255, {0xFF, 0}}, {256, {0, 1}}, {257, {1, 1}}, {399, {0x8F, 1}}, {400, {0x90, 1}}};
    const struct session s = session_below(ROW, ROW);
    uint8_t image[LESKOFAR_IMAGE];
    expect("a fresh session", leskofar_fresh(image, sizeof image) == LESKOFAR_ACCEPTED);
    expect("to the end of the row", is_moved(image, &s));
    for (size_t i = 0; i < sizeof known / sizeof known[0]; i++) {
        expect("a level's bytes", memcmp(level_bytes(image, ROW - known[i].level), known[i].bytes, WIDE_LEVEL) == 0);
        struct session other = s;
        other.levels[CONSTANT_PLACE + ROW - known[i].level] ^= BYTE;
        lay(&desk, &TURN[TURNING_BACK], &other);
        expect("another high byte", is_refused(&desk, &TURN[TURNING_BACK], LESKOFAR_NO_SESSION));
        expect("nor for a move",
               leskofar_move(BOOK, desk.from.at, desk.from_len, 0, text, sizeof text).refusal == LESKOFAR_NO_SESSION);
    }
}

/* Whether the goal was asked where the session stood: a literal whose name has one letter more than any in the row. */
static int is_asked(leskofar_answer answer) {
    char wanted[TEXT_SIZE];
    char name[ROW_LITERALS + 2] = {0};
    memset(name, 'a', ROW_LITERALS + 1);
    int length = snprintf(wanted, sizeof wanted,
                          "(push 1)\n(declare-fun |%s:bool| () Bool)\n(push 1)\n(assert (not |%s:bool|))\n(check-sat)\n", name, name);
    return answer.refusal == LESKOFAR_ACCEPTED && answer.text == (uint64_t)length && memcmp(text, wanted, answer.text) == 0;
}

/* A question at a node of the row: what its goal declares, one level deeper, is not stored. */
static void question_tests(uint32_t depth) {
    static const uint8_t said[] = {'s', 'a', 't'};
    struct session s = session_below(depth, depth);
    uint8_t image[LESKOFAR_IMAGE];
    uint8_t wanted[LESKOFAR_IMAGE];
    expect("a fresh session", leskofar_fresh(image, sizeof image) == LESKOFAR_ACCEPTED);
    expect("down to the question", is_moved(image, &s));
    expect("a question", is_asked(leskofar_ask(BOOK, image, sizeof image, depth, goal, text, sizeof text)));
    s.goal = goal;
    for (s.owed = REPLY; s.owed <= MODEL; s.owed++) {
        spell(wanted, &WIDE, &s);
        expect("its image", memcmp(image, wanted, sizeof wanted) == 0);
        expect_turns("while it is open", &s, depth);
        expect("its reply", leskofar_reply(BOOK, image, sizeof image, 1, said, sizeof said, text, sizeof text, NULL, 0).refusal ==
                                (s.owed == REPLY ? LESKOFAR_ACCEPTED : LESKOFAR_NO_REPLY_OWED));
    }
}

/* A narrow session goes on to the end of the row as the calls' own does. */
static void onward_tests(void) {
    static uint8_t own_text[TEXT_SIZE];
    const struct session s = session_below(NARROW_DEPTH, NARROW_DEPTH);
    const struct session end = session_below(ROW, ROW);
    uint8_t own[LESKOFAR_IMAGE];
    expect("a fresh session", leskofar_fresh(own, sizeof own) == LESKOFAR_ACCEPTED);
    expect("where narrow sessions end", is_moved(own, &s));
    leskofar_answer wanted = leskofar_move(BOOK, own, sizeof own, ROW, own_text, sizeof own_text);
    lay(&desk, &TURN[WIDENING], &s);
    expect("it is widened", is_turned(&desk, &TURN[WIDENING], &s));
    leskofar_answer moved = leskofar_move(BOOK, desk.to.at, LESKOFAR_IMAGE, ROW, text, sizeof text);
    expect("and goes on", moved.refusal == LESKOFAR_ACCEPTED && is_spelled(desk.to.at, &end));
    expect("to the same image", memcmp(desk.to.at, own, sizeof own) == 0);
    expect("by the same text", wanted.text > 0 && moved.text == wanted.text && memcmp(text, own_text, wanted.text) == 0);
}

/* A row of nodes of which only the first declares anything, so that its levels are 1 at most. */
static void write_plain_row(uint32_t depth) {
    static struct records plain;
    memset(&plain, 0, sizeof plain);
    add_name(&plain, "x");
    ADD(&plain, CONSTANTS, ANY_NAME, BOOL);
    for (uint32_t node = 0; node < depth; node++) {
        ADD(&plain, CONTEXTS, node, node);
        ADD(&plain, TERMS, node == 0 ? ID : BOOLEAN, 0);
    }
    desk.book_len = write_records(desk.book, &plain);
}

/* Its last node's session, and its root's. */
static void plain_row_tests(uint32_t depth) {
    const struct session s = {.node = depth, .levels = {[CONSTANT_PLACE] = 1}};
    const struct session root = {.node = 0};
    uint8_t image[LESKOFAR_IMAGE];
    write_plain_row(depth);
    expect("a book's depth", leskofar_book_test(BOOK) == LESKOFAR_ACCEPTED);
    expect("a fresh session", leskofar_fresh(image, sizeof image) == LESKOFAR_ACCEPTED);
    expect("down a plain row", is_moved(image, &s));
    expect_turns("levels of 1 at most", &s, depth);
    expect_both("the root of a deep book", &root);
}

/* A row that is too deep, which is told wherever a session stands. */
static void too_deep_tests(uint32_t depth) {
    const struct session sessions[] = {{.node = depth, .levels = {[CONSTANT_PLACE] = 1}}, {.node = 0}};
    write_plain_row(depth);
    expect("too deep a book", leskofar_book_test(BOOK) == LESKOFAR_TOO_DEEP);
    for (size_t i = 0; i < sizeof sessions / sizeof sessions[0]; i++) {
        for (int k = 0; k < TURNS; k++) {
            lay(&desk, &TURN[k], &sessions[i]);
            expect("a turn on it", is_refused(&desk, &TURN[k], LESKOFAR_TOO_DEEP));
        }
        lay(&desk, &TURN[TURNING_BACK], &sessions[i]);
        expect("a move on it", leskofar_move(BOOK, desk.from.at, desk.from_len, 0, text, sizeof text).refusal == LESKOFAR_TOO_DEEP);
    }
}

static void depth_tests(void) {
    static const uint32_t depths[] = {1, 63, 64, 65, 66, 80, 254, 255, 256, 257, 399, 400, 401, 402, 511, 512};
    for (size_t i = 0; i < sizeof depths / sizeof depths[0]; i++) {
        if (depths[i] <= MOST_DEPTH) {
            plain_row_tests(depths[i]);
        } else {
            too_deep_tests(depths[i]);
        }
    }
}

int main(void) {
    make_records(&records);
    desk.book_len = write_records(desk.book, &records);
    expect("as many terms as there can be", records.counts[TERMS] == MOST[TERMS]);
    row_tests();
    high_byte_tests();
    question_tests(NARROW_DEPTH - 1);
    question_tests(NARROW_DEPTH);
    question_tests(NARROW_DEPTH + 1);
    question_tests(ROW);
    onward_tests();
    depth_tests();
    return close_tests();
}
