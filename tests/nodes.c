/* The test of a list of nodes as C sees it: each answer, the order of refusals, and the same as by a fresh session's moves. */
#include "expect.h"
#include "made_book.h"
#include <leskofar.h>
#include <string.h>

enum { FILL = 0xA5, BOOK_SIZE = 1024, TEXT_SIZE = 1024, BITS_PER_BYTE = 8 };

/* Longer than any list that is taken, by more than a number. */
enum { LONGEST = (LESKOFAR_NODES_MOST + 2) * NUMBER + 1 };

/*
 * The functions: one whose axiom has no term; one whose axiom applies the first; one without axioms; and one whose axiom applies the
 * first, and is sent only where the third is declared as well.
 */
enum { LOST, LINKED, PLAIN, WAITING, FUNCTIONS };

/* The nodes are called by what they apply, or by where they are. */
enum { ROOT, TOP, PLAIN_NODE, LOST_NODE, BELOW_LOST, LINKED_NODE, ALONE, BELOW_PLAIN, BESIDE, NODES = BESIDE };

static const char LETTERS[] = "xlkpw";

/* Where the first name has its length, behind all letters and its own start. */
enum { FIRST_LENGTH = CONTENTS + sizeof LETTERS - 1 + NUMBER };

static size_t sample_book(uint8_t *book) {
    static const uint32_t names[] = {0, 1, 1, 1, 2, 1, 3, 1, 4, 1};
    static const uint32_t constants[] = {0, 1};
    static const uint32_t functions[FUNCTIONS][6] = {{1, 1, 0, 0, 0, 1}, {2, 1, 0, 0, 1, 1}, {3, 1, 0, 0, 0, 0}, {4, 1, 0, 0, 2, 1}};
    static const uint32_t axioms[] = {UINT32_MAX, 0, 1, 0, 1, 1, 1, 3, 2};
    static const uint32_t terms[][7] = {
        {5, LOST}, {5, LOST},                                                                      /* of the axioms */
        {3, 0},    {5, PLAIN}, {5, LOST}, {3, 0}, {5, LINKED}, {5, WAITING}, {5, WAITING}, {3, 0}, /* of the nodes */
    };
    static const uint32_t contexts[NODES][3] = {{ROOT, 2}, {TOP, 3}, {TOP, 4},        {LOST_NODE, 5},
                                                {ROOT, 6}, {TOP, 7}, {PLAIN_NODE, 8}, {TOP, 9}};
    static const uint32_t lists[] = {LOST, LINKED, 2, PLAIN, WAITING};
    const struct section sections[SECTIONS - 1] = {
        {names, 5, 2},  {NULL, 0, 0}, {constants, 1, 2}, {functions[0], FUNCTIONS, 6},
        {axioms, 3, 3}, {NULL, 0, 0}, {terms[0], 10, 7}, {contexts[0], NODES, 3},
        {lists, 5, 1},
    };
    return write_book(book, LETTERS, sections);
}

static uint8_t book[BOOK_SIZE];
static size_t book_len;

/* A scratch longer than it need be, of which a call gets a part. */
static uint8_t scratch[LESKOFAR_SCRATCH + 1];
static size_t scratch_len;

/* Whether each call so far has left its scratch as it must, and book and list as they were. */
static int are_left_well = 1;

static leskofar_nodes_tested test_bytes(const uint8_t *list, size_t list_len) {
    uint8_t list_before[LONGEST];
    uint8_t book_before[BOOK_SIZE];
    memcpy(book_before, book, sizeof book);
    if (list_len > 0) {
        memcpy(list_before, list, list_len);
    }
    memset(scratch, FILL, sizeof scratch);
    leskofar_nodes_tested answer = leskofar_nodes_test(book, book_len, scratch, scratch_len, list, list_len);
    size_t cleared = answer.refusal == LESKOFAR_SHORT_SCRATCH ? 0 : scratch_len;
    are_left_well = are_left_well && all_are(scratch, cleared, 0) && all_are(scratch + cleared, sizeof scratch - cleared, FILL) &&
                    memcmp(book, book_before, sizeof book) == 0 && (list_len == 0 || memcmp(list, list_before, list_len) == 0);
    return answer;
}

static leskofar_nodes_tested test_nodes(const uint32_t *nodes, size_t count) {
    uint8_t list[LONGEST];
    for (size_t i = 0; i < count; i++) {
        put_number(list + i * NUMBER, nodes[i]);
    }
    return test_bytes(list, count * NUMBER);
}

/* The list of just these nodes. */
#define TEST(...) test_nodes((const uint32_t[]){__VA_ARGS__}, sizeof((const uint32_t[]){__VA_ARGS__}) / sizeof(uint32_t))

static void set_up(void) {
    memset(book, 0, sizeof book);
    book_len = sample_book(book);
    scratch_len = sizeof scratch;
}

static int is(leskofar_nodes_tested answer, uint32_t refusal, uint32_t result, uint64_t position) {
    return answer.refusal == refusal && answer.result == result && answer.position == position;
}

static int passes(leskofar_nodes_tested answer) {
    return is(answer, LESKOFAR_ACCEPTED, LESKOFAR_NODES_PASS, 0);
}

static int fails_at(leskofar_nodes_tested answer, uint64_t position) {
    return is(answer, LESKOFAR_ACCEPTED, LESKOFAR_NODE_FAILS, position);
}

static int refused(leskofar_nodes_tested answer, uint32_t refusal) {
    return is(answer, refusal, 0, 0);
}

static void named_tests(void) {
    uint8_t odd[1 + 2 * NUMBER];
    put_number(odd + 1, TOP);
    put_number(odd + 1 + NUMBER, LOST_NODE);
    set_up();
    expect("an empty list", passes(test_bytes(odd, 0)));
    expect("a list at an odd address", fails_at(test_bytes(odd + 1, 2 * NUMBER), 1));
    expect("the root", passes(TEST(ROOT)));
    expect("a node that passes", passes(TEST(TOP)));
    expect("a node twice", passes(TEST(PLAIN_NODE, TOP, PLAIN_NODE)));
    expect("a node that fails", fails_at(TEST(LOST_NODE), 0));
    expect("one in the middle", fails_at(TEST(TOP, PLAIN_NODE, LOST_NODE, ALONE), 2));
    expect("its child", fails_at(TEST(TOP, BELOW_LOST), 1));
    expect("its sibling behind it", fails_at(TEST(BESIDE, LOST_NODE, BESIDE), 1));
    expect("one that fails twice", fails_at(TEST(ROOT, LOST_NODE, TOP, LOST_NODE), 1));
    expect("the first of two that fail", fails_at(TEST(TOP, LINKED_NODE, LOST_NODE), 1));
    expect("an axiom of an axiom", fails_at(TEST(LINKED_NODE), 0));
    expect("an axiom that waits", passes(TEST(ALONE)));
    expect("an axiom that an upper node lets go", fails_at(TEST(ALONE, PLAIN_NODE, BELOW_PLAIN), 2));
    expect("down, up and across", passes(TEST(PLAIN_NODE, TOP, ALONE, ROOT, BESIDE, PLAIN_NODE)));
    expect("the last node", passes(TEST(NODES)));
}

static void refusal_tests(void) {
    const uint32_t long_and_outside[LESKOFAR_NODES_MOST + 1] = {LOST_NODE, NODES + 1};
    set_up();
    expect("behind the last node", refused(TEST(NODES + 1), LESKOFAR_NOT_IN_BOOK));
    expect("the largest number", refused(TEST(UINT32_MAX), LESKOFAR_NOT_IN_BOOK));
    expect("outside behind one that fails", refused(TEST(LOST_NODE, TOP, NODES + 1), LESKOFAR_NOT_IN_BOOK));
    expect("outside before one that fails", refused(TEST(NODES + 1, LOST_NODE), LESKOFAR_NOT_IN_BOOK));
    expect("too many, and one outside", refused(test_nodes(long_and_outside, LESKOFAR_NODES_MOST + 1), LESKOFAR_COUNT_OVER_LIMIT));
    expect("as many as may be, and one outside", refused(test_nodes(long_and_outside, LESKOFAR_NODES_MOST), LESKOFAR_NOT_IN_BOOK));
    book_len--;
    expect("a book cut short", refused(TEST(TOP), LESKOFAR_BAD_CONTENTS));
    expect("a book cut short, and too many", refused(test_nodes(long_and_outside, LESKOFAR_NODES_MOST + 1), LESKOFAR_BAD_CONTENTS));
    scratch_len = LESKOFAR_SCRATCH - 1;
    expect("a short scratch before all", refused(test_nodes(long_and_outside, LESKOFAR_NODES_MOST + 1), LESKOFAR_SHORT_SCRATCH));
    book_len++;
    expect("a short scratch", refused(TEST(TOP), LESKOFAR_SHORT_SCRATCH));
    scratch_len = LESKOFAR_SCRATCH;
    expect("a scratch just long enough", passes(TEST(TOP)));
    put_number(book + FIRST_LENGTH, 0);
    expect("a name without letters, and too many", refused(test_nodes(long_and_outside, LESKOFAR_NODES_MOST + 1), LESKOFAR_BAD_NAME));
    expect("a name without letters, and one outside", refused(TEST(NODES + 1), LESKOFAR_BAD_NAME));
}

/* NULL stands for every empty buffer. */
static void null_tests(void) {
    const uint8_t top[NUMBER] = {TOP};
    set_up();
    expect("no list", passes(test_bytes(NULL, 0)));
    expect("no book", refused(leskofar_nodes_test(NULL, 0, scratch, sizeof scratch, top, sizeof top), LESKOFAR_BAD_CONTENTS));
    expect("neither book nor list", refused(leskofar_nodes_test(NULL, 0, scratch, sizeof scratch, NULL, 0), LESKOFAR_BAD_CONTENTS));
    expect("no scratch", refused(leskofar_nodes_test(book, book_len, NULL, 0, top, sizeof top), LESKOFAR_SHORT_SCRATCH));
    expect("nothing at all", refused(leskofar_nodes_test(NULL, 0, NULL, 0, NULL, 0), LESKOFAR_SHORT_SCRATCH));
}

/* What a list of so many bytes must be answered, of which each whole number is a good node or each is outside. */
static int is_answered(leskofar_nodes_tested answer, size_t length, int is_outside) {
    size_t whole = length / NUMBER;
    size_t cut = length % NUMBER == 0 ? 0 : 1;
    if (whole + cut > LESKOFAR_NODES_MOST) {
        return refused(answer, LESKOFAR_COUNT_OVER_LIMIT);
    }
    return cut > 0 || (is_outside && whole > 0) ? refused(answer, LESKOFAR_NOT_IN_BOOK) : passes(answer);
}

static void length_tests(void) {
    static const struct {
        size_t length;
        uint32_t refusal;
    } named[] = {{1, LESKOFAR_NOT_IN_BOOK},         {3, LESKOFAR_NOT_IN_BOOK},         {4, LESKOFAR_ACCEPTED},
                 {5, LESKOFAR_NOT_IN_BOOK},         {2047, LESKOFAR_NOT_IN_BOOK},      {2048, LESKOFAR_ACCEPTED},
                 {2049, LESKOFAR_COUNT_OVER_LIMIT}, {2050, LESKOFAR_COUNT_OVER_LIMIT}, {2051, LESKOFAR_COUNT_OVER_LIMIT},
                 {2052, LESKOFAR_COUNT_OVER_LIMIT}, {2053, LESKOFAR_COUNT_OVER_LIMIT}};
    uint8_t roots[LONGEST];
    uint8_t outside[LONGEST];
    int are_good = 1;
    set_up();
    memset(roots, 0, sizeof roots);
    memset(outside, FILL, sizeof outside);
    for (size_t i = 0; i < sizeof named / sizeof named[0]; i++) {
        expect("a list of a length", refused(test_bytes(roots, named[i].length), named[i].refusal));
    }
    for (size_t length = 0; length <= LONGEST; length++) {
        are_good =
            are_good && is_answered(test_bytes(roots, length), length, 0) && is_answered(test_bytes(outside, length), length, 1);
    }
    expect("lists of every length", are_good);
    /* The first byte of what is cut off a number is a node's. */
    outside[0] = TOP;
    memset(outside + 1, 0, NUMBER - 1);
    expect("a whole number", passes(test_bytes(outside, NUMBER)));
    expect("a number cut short", refused(test_bytes(outside, NUMBER - 1), LESKOFAR_NOT_IN_BOOK));
    outside[NUMBER - 1] = 1;
    expect("the highest byte counts", refused(test_bytes(outside, NUMBER), LESKOFAR_NOT_IN_BOOK));
}

/* Each position of the longest list, of nodes that go down and up. */
static void position_tests(void) {
    static const uint32_t passing[] = {PLAIN_NODE, ROOT, BESIDE, ALONE, TOP};
    static const uint32_t failing[] = {LOST_NODE, BELOW_LOST, LINKED_NODE, BELOW_PLAIN};
    uint32_t nodes[LESKOFAR_NODES_MOST];
    int are_good = 1;
    set_up();
    for (size_t i = 0; i < LESKOFAR_NODES_MOST; i++) {
        nodes[i] = passing[i % (sizeof passing / sizeof passing[0])];
    }
    expect("the longest list", passes(test_nodes(nodes, LESKOFAR_NODES_MOST)));
    /* From the last to the first, so that others that fail stand behind. */
    for (size_t i = LESKOFAR_NODES_MOST; i-- > 0;) {
        nodes[i] = failing[i % (sizeof failing / sizeof failing[0])];
        are_good = are_good && fails_at(test_nodes(nodes, LESKOFAR_NODES_MOST), i);
    }
    expect("every position", are_good);
}

/* Whether a fresh session is refused 9 at a node of the book, by its own move. */
static int is_missed(uint32_t node) {
    uint8_t image[LESKOFAR_IMAGE];
    uint8_t text[TEXT_SIZE];
    (void)leskofar_fresh(image, sizeof image);
    return leskofar_move(book, book_len, scratch, sizeof scratch, image, sizeof image, node, text, sizeof text).refusal ==
           LESKOFAR_MISSING_AXIOM;
}

/* Whether a list of the book's nodes is answered as by moves. */
static int is_as_moved(const uint32_t *nodes, size_t count, const int missed[NODES + 1]) {
    leskofar_nodes_tested answer = test_nodes(nodes, count);
    for (size_t i = 0; i < count; i++) {
        if (missed[nodes[i]]) {
            return fails_at(answer, i);
        }
    }
    return passes(answer);
}

static void look_at_nodes(int missed[NODES + 1]) {
    for (uint32_t node = 0; node <= NODES; node++) {
        missed[node] = is_missed(node);
    }
}

static void move_tests(void) {
    static const int expected[NODES + 1] = {[LOST_NODE] = 1, [BELOW_LOST] = 1, [LINKED_NODE] = 1, [BELOW_PLAIN] = 1};
    int missed[NODES + 1];
    int are_good = 1;
    set_up();
    look_at_nodes(missed);
    expect("moves that are refused 9", memcmp(missed, expected, sizeof missed) == 0);
    for (uint32_t a = 0; a <= NODES; a++) {
        for (uint32_t b = 0; b <= NODES; b++) {
            for (uint32_t c = 0; c <= NODES; c++) {
                are_good = are_good && is_as_moved((const uint32_t[]){a, b, c}, 3, missed);
            }
        }
    }
    expect("lists of three as by moves", are_good);
}

/* The book with each bit turned: refused as the book test refuses it, or answered as by moves. */
static void damage_tests(void) {
    const uint32_t nodes[] = {BESIDE, BELOW_PLAIN, ALONE, LINKED_NODE, BELOW_LOST, LOST_NODE, PLAIN_NODE, TOP, ROOT};
    const size_t count = sizeof nodes / sizeof nodes[0];
    size_t good_books = 0;
    int missed[NODES + 1];
    int are_good = 1;
    set_up();
    for (size_t bit = 0; bit < book_len * BITS_PER_BYTE; bit++) {
        book[bit / BITS_PER_BYTE] ^= (uint8_t)(1 << bit % BITS_PER_BYTE);
        uint32_t refusal = leskofar_book_test(book, book_len, scratch, sizeof scratch);
        if (refusal == LESKOFAR_ACCEPTED) {
            good_books++;
            look_at_nodes(missed);
            for (size_t from = 0; from < count; from++) {
                are_good = are_good && is_as_moved(nodes + from, count - from, missed);
            }
        } else {
            are_good = are_good && refused(test_nodes(nodes, count), refusal);
        }
        book[bit / BITS_PER_BYTE] ^= (uint8_t)(1 << bit % BITS_PER_BYTE);
    }
    expect("damaged books", are_good);
    expect("some of them good", good_books > 0);
}

int main(void) {
    named_tests();
    refusal_tests();
    null_tests();
    length_tests();
    position_tests();
    move_tests();
    damage_tests();
    expect("scratch, book and list after each call", are_left_well);
    return close_tests();
}
