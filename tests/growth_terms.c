/* New terms as C sees them: every kind with its lists, what is handed over wrongly, and children that may not be. */
#include "growth_calls.h"

/* A book with a record of everything; terms 3 to 5 are in no use, and pattern 1 has term 4. */
enum { OWN = 6, IN_USE = 2, UNUSED_1 = 3, PATTERN_TERM = 4, UNUSED_2 = 5, EMPTY_PATTERN = 0, PATTERN = 1, USER_TYPE = 2 };

static struct records rich;
static struct records grown;
static struct lent lent;

static void rich_records(void) {
    memset(&rich, 0, sizeof rich);
    add_name(&rich, "x");
    add_name(&rich, "<");
    ADD(&rich, TYPES, 0);
    ADD(&rich, CONSTANTS, 0, INT_TYPE);
    ADD(&rich, CONSTANTS, 0, USER_TYPE);
    ADD(&rich, FUNCTIONS, 0, INT_TYPE, 0, 0, 0, 0);
    ADD(&rich, PATTERNS, 0, 0);
    ADD(&rich, PATTERNS, 2, 1);
    ADD(&rich, TERMS, 1, 1);
    ADD(&rich, TERMS, 1, 2);
    ADD(&rich, TERMS, 4, 1, 0, 2);
    ADD(&rich, TERMS, 0, 1);
    ADD(&rich, TERMS, 5, 0);
    ADD(&rich, TERMS, 0, 0);
    ADD(&rich, CONTEXTS, 0, IN_USE, 0);
    ADD(&rich, LISTS, 0);
    ADD(&rich, LISTS, 1);
    ADD(&rich, LISTS, PATTERN_TERM);
}

/* What a call is handed: kind and fields, and two lists of bytes. */
struct handed {
    uint32_t fields[7];
    uint8_t lists[2][3 * NUMBER];
    size_t lengths[2];
};

#define HAND(...) ((struct handed){.fields = {__VA_ARGS__}})

/* The same with a number at the end of a list. */
static struct handed with(struct handed h, int list, uint32_t number) {
    put_number(h.lists[list] + h.lengths[list], number);
    h.lengths[list] += NUMBER;
    return h;
}

/* The same with a list so much longer, or shorter. */
static struct handed cut(struct handed h, int list, size_t length) {
    h.lengths[list] = length;
    return h;
}

static leskofar_appended append(struct handed h) {
    const uint32_t *f = h.fields;
    lend(&lent, &rich);
    grown = rich;
    return leskofar_append_term(BOOK(&lent), f[0], f[1], f[2], f[3], f[4], f[5], f[6], h.lists[0], h.lengths[0], h.lists[1],
                                h.lengths[1], NEW(&lent));
}

static int refused(struct handed h, uint32_t refusal) {
    leskofar_appended answer = append(h);
    return was_refused(&lent, answer, refusal);
}

/* Whether the record is what was handed over, with no list. */
static int appends(struct handed h) {
    leskofar_appended answer = append(h);
    add_record(&grown, TERMS, h.fields, sizeof h.fields / sizeof h.fields[0]);
    return has_grown(&lent, answer, OWN, &grown);
}

static void plain_tests(void) {
    expect("false", appends(HAND(0, 0)));
    expect("true", appends(HAND(0, 1)));
    expect("the least number", appends(HAND(1, 0, (uint32_t)INT32_MIN)));
    expect("minus one", appends(HAND(1, UINT32_MAX, UINT32_MAX)));
    expect("a literal", appends(HAND(2, 1, USER_TYPE)));
    expect("a constant", appends(HAND(3, 1)));
    expect("an operator without arguments", appends(HAND(4, 1)));
    expect("a function without arguments", appends(HAND(5, 0)));
    expect("if, then, else", appends(HAND(6, UNUSED_1, PATTERN_TERM, UNUSED_2)));
    expect("let", appends(HAND(7, 0, UNUSED_2, UNUSED_1)));
    expect("a quantifier without variables", appends(HAND(8, 1, 0, 0, 0, 0, UNUSED_1)));
}

/* Lists stand behind all entries, first and second in this order; an empty one starts at 0. */
static void list_tests(void) {
    leskofar_appended answer = append(with(with(HAND(4, 1), 0, UNUSED_1), 0, UNUSED_2));
    ADD(&grown, TERMS, 4, 1, 3, 2);
    ADD(&grown, LISTS, UNUSED_1);
    ADD(&grown, LISTS, UNUSED_2);
    expect("an operator's arguments", has_grown(&lent, answer, OWN, &grown));

    answer = append(with(HAND(5, 0), 0, UNUSED_2));
    ADD(&grown, TERMS, 5, 0, 3, 1);
    ADD(&grown, LISTS, UNUSED_2);
    expect("a function's arguments", has_grown(&lent, answer, OWN, &grown));

    answer = append(with(with(with(HAND(8, 0, 0, 0, 0, 0, UNUSED_1), 0, 1), 0, 0), 1, PATTERN));
    ADD(&grown, TERMS, 8, 0, 3, 2, 5, 1, UNUSED_1);
    ADD(&grown, LISTS, 1);
    ADD(&grown, LISTS, 0);
    ADD(&grown, LISTS, PATTERN);
    expect("a quantifier's variables and patterns", has_grown(&lent, answer, OWN, &grown));

    answer = append(with(HAND(8, 1, 0, 0, 0, 0, UNUSED_1), 0, 1));
    ADD(&grown, TERMS, 8, 1, 3, 1, 0, 0, UNUSED_1);
    ADD(&grown, LISTS, 1);
    expect("no patterns", has_grown(&lent, answer, OWN, &grown));

    answer = append(with(with(HAND(8, 1, 0, 0, 0, 0, UNUSED_1), 1, EMPTY_PATTERN), 1, EMPTY_PATTERN));
    ADD(&grown, TERMS, 8, 1, 0, 0, 3, 2, UNUSED_1);
    ADD(&grown, LISTS, EMPTY_PATTERN);
    ADD(&grown, LISTS, EMPTY_PATTERN);
    expect("no variables, and a pattern twice", has_grown(&lent, answer, OWN, &grown));
}

static void handed_tests(void) {
    static const uint32_t four = LESKOFAR_FIELD_OUT_OF_RANGE;
    const struct handed none[] = {HAND(0, 1),    HAND(1, 7),       HAND(2, 1, USER_TYPE),
                                  HAND(3, 1),    HAND(9),          HAND(7, 0, UNUSED_1, UNUSED_2),
                                  HAND(UINT32_MAX), HAND(6, UNUSED_1, UNUSED_2, UNUSED_2)};
    for (size_t i = 0; i < sizeof none / sizeof none[0]; i++) {
        expect("a first list for a kind without", refused(with(none[i], 0, 0), four));
        expect("a second list for a kind without", refused(with(none[i], 1, 0), four));
        expect("a byte for a kind without", refused(cut(none[i], 0, 1), four));
    }
    for (uint32_t kind = 4; kind <= 5; kind++) {
        expect("a second list of an application", refused(with(HAND(kind, 0), 1, UNUSED_1), four));
        expect("its start", refused(with(HAND(kind, 0, 3), 0, UNUSED_1), four));
        expect("its count", refused(with(HAND(kind, 0, 0, 1), 0, UNUSED_1), four));
        for (size_t length = 1; length < 3 * NUMBER; length++) {
            expect("a list cut inside a number", length % NUMBER == 0 || refused(cut(with(HAND(kind, 0), 0, UNUSED_1), 0, length), four));
        }
    }
    for (int field = 2; field <= 5; field++) {
        struct handed h = HAND(8, 1, 0, 0, 0, 0, UNUSED_1);
        h.fields[field] = 1;
        expect("a quantifier's range given", refused(h, four));
    }
    for (int list = 0; list < 2; list++) {
        expect("its list cut", refused(cut(with(HAND(8, 1, 0, 0, 0, 0, UNUSED_1), list, 0), list, NUMBER - 1), four));
        expect("its list out of range", refused(with(HAND(8, 1, 0, 0, 0, 0, UNUSED_1), list, 2), four));
    }
    expect("a quantifier's flag", refused(HAND(8, 2, 0, 0, 0, 0, UNUSED_1), four));
    expect("a truth value", refused(HAND(0, 2), four));
    expect("a name", refused(HAND(4, 2), four));
    expect("a function", refused(HAND(5, 1), four));
    expect("a constant that is not there", refused(HAND(3, 2), four));
    expect("a literal's type", refused(HAND(2, 0, 3), four));
    for (int field = 2; field < 7; field++) {
        struct handed h = HAND(3, 1);
        h.fields[field] = 1;
        expect("an unused field", refused(h, four));
    }
}

/* A list too long for a book is 3, where the kind has one; else it is 4. */
static void long_list_tests(void) {
    static uint8_t list[(2048 + 1) * NUMBER];
    const size_t room = MOST[LISTS] - rich.counts[LISTS];
    for (size_t count = room; count <= MOST[LISTS] + 1; count++) {
        lend(&lent, &rich);
        leskofar_appended answer =
            leskofar_append_term(BOOK(&lent), 8, 1, 0, 0, 0, 0, UNUSED_1, list, count * NUMBER, NULL, 0, NEW(&lent));
        expect("a long list", count <= room ? answer.number == OWN : was_refused(&lent, answer, LESKOFAR_COUNT_OVER_LIMIT));
    }
    lend(&lent, &rich);
    expect("a long list for a kind without",
           was_refused(&lent, leskofar_append_term(BOOK(&lent), 9, 0, 0, 0, 0, 0, 0, list, sizeof list, list, sizeof list, NEW(&lent)),
                       LESKOFAR_FIELD_OUT_OF_RANGE));
}

/* What is handed over wrongly is 4, behind 3 and before 5. */
static void order_tests(void) {
    static struct records full;
    const uint8_t own[NUMBER] = {OWN};
    full = rich;
    while (full.counts[TERMS] < MOST[TERMS]) {
        ADD(&full, TERMS, 0, 1);
    }
    lend(&lent, &full);
    leskofar_appended answer = leskofar_append_term(BOOK(&lent), 4, 1, 9, 0, 0, 0, 0, own, sizeof own, own, 1, NEW(&lent));
    expect("too many, and handed over wrongly", was_refused(&lent, answer, LESKOFAR_COUNT_OVER_LIMIT));
    expect("handed over wrongly, and its own child", refused(with(HAND(4, 1, 9), 0, OWN), LESKOFAR_FIELD_OUT_OF_RANGE));
}

static void child_tests(void) {
    static const uint32_t five = LESKOFAR_NO_FOREST;
    expect("its own argument", refused(with(HAND(4, 1), 0, OWN), five));
    expect("its own body", refused(HAND(8, 1, 0, 0, 0, 0, OWN), five));
    expect("its own branch", refused(HAND(6, UNUSED_1, UNUSED_2, OWN), five));
    expect("its own value", refused(HAND(7, 0, OWN, UNUSED_1), five));
    expect("the next term", refused(with(HAND(4, 1), 0, OWN + 1), LESKOFAR_FIELD_OUT_OF_RANGE));
    expect("the next term as a body", refused(HAND(8, 1, 0, 0, 0, 0, OWN + 1), LESKOFAR_FIELD_OUT_OF_RANGE));
    expect("an argument in use", refused(with(HAND(4, 1), 0, IN_USE), five));
    expect("an argument twice", refused(with(with(HAND(4, 1), 0, UNUSED_1), 0, UNUSED_1), five));
    expect("a body in use", refused(HAND(8, 1, 0, 0, 0, 0, 0), five));
    expect("a pattern's term as a body", refused(with(HAND(8, 1, 0, 0, 0, 0, PATTERN_TERM), 1, PATTERN), five));
    expect("a pattern twice", refused(with(with(HAND(8, 1, 0, 0, 0, 0, UNUSED_1), 1, PATTERN), 1, PATTERN), five));
}

/* A pattern whose term a quantifier lists already. */
static void pattern_tests(void) {
    leskofar_appended answer = append(with(HAND(8, 1, 0, 0, 0, 0, UNUSED_1), 1, PATTERN));
    const uint8_t pattern[NUMBER] = {PATTERN};
    expect("a pattern for the first time", answer.refusal == LESKOFAR_ACCEPTED);
    memcpy(lent.book, lent.new_book, answer.length);
    lent.book_len = answer.length;
    memset(lent.new_book, FILL, sizeof lent.new_book);
    memset(lent.scratch, FILL, sizeof lent.scratch);
    answer = leskofar_append_term(BOOK(&lent), 8, 1, 0, 0, 0, 0, UNUSED_2, NULL, 0, pattern, sizeof pattern, NEW(&lent));
    expect("a pattern whose terms are in use", was_refused(&lent, answer, LESKOFAR_NO_FOREST));
}

int main(void) {
    rich_records();
    plain_tests();
    list_tests();
    handed_tests();
    long_list_tests();
    order_tests();
    child_tests();
    pattern_tests();
    return close_tests();
}
