/* The writer as C sees it, case by case: worked books, which name is taken, and each refusal that a call's own arguments bring. */
#include "growth_calls.h"

static struct records small;
static struct records grown;
static struct lent lent;

/* Buffers for a call on the small book, of which `grown` is a copy that expected records are added to. */
static void set_small(void) {
    grown = small;
    lend(&lent, &small);
}

/* A call on the small book. */
#define ON_SMALL(call) (set_small(), (call))

static int refused(leskofar_appended answer, uint32_t refusal) {
    return was_refused(&lent, answer, refusal);
}

/* The new book is the next call's book. */
static void go_on(leskofar_appended answer) {
    memcpy(lent.book, lent.new_book, answer.length);
    lent.book_len = answer.length;
    memset(lent.new_book, FILL, sizeof lent.new_book);
    memset(lent.scratch, FILL, sizeof lent.scratch);
}

/* From the book without records: a point of the trace, the term 7, and a record of it. */
static void worked_tests(void) {
    memset(&grown, 0, sizeof grown);
    lend(&lent, &grown);
    expect("a book without records", lent.book_len == 80);
    leskofar_appended answer = leskofar_record_trace_point(BOOK(&lent), 0, TEXT("start"), NEW(&lent));
    add_name(&grown, "probe%0");
    add_name(&grown, "=");
    add_name(&grown, "start");
    ADD(&grown, CONSTANTS, 0, BOOL);
    ADD(&grown, TERMS, 0, 1);
    ADD(&grown, TERMS, 3, 0);
    ADD(&grown, TERMS, 4, 1, 0, 2);
    ADD(&grown, LISTS, 1);
    ADD(&grown, LISTS, 0);
    ADD(&grown, CONTEXTS, 0, 2, 3);
    expect("a point of the trace", has_grown(&lent, answer, 1, &grown) && answer.length == 229);
    go_on(answer);
    answer = leskofar_append_term(BOOK(&lent), 1, 7, 0, 0, 0, 0, 0, NULL, 0, NULL, 0, NEW(&lent));
    ADD(&grown, TERMS, 1, 7);
    expect("the term 7", has_grown(&lent, answer, 3, &grown));
    go_on(answer);
    answer = leskofar_record(BOOK(&lent), 1, 3, INT_TYPE, 0, NULL, 0, NEW(&lent));
    add_name(&grown, "probe%1");
    ADD(&grown, CONSTANTS, 3, INT_TYPE);
    ADD(&grown, TERMS, 3, 1);
    ADD(&grown, TERMS, 4, 1, 2, 2);
    ADD(&grown, LISTS, 4);
    ADD(&grown, LISTS, 3);
    ADD(&grown, CONTEXTS, 1, 5, 4);
    expect("a record of it", has_grown(&lent, answer, 2, &grown) && answer.length == 356);
}

/* A name is appended whatever stands there; the four take the lowest that has the text, the call's own among them. */
static void name_tests(void) {
    struct lent *l = &lent;
    leskofar_appended answer = ON_SMALL(leskofar_append_name(BOOK(l), TEXT("x"), NEW(l)));
    add_name(&grown, "x");
    expect("a name that stands already", has_grown(l, answer, 2, &grown));
    go_on(answer);
    answer = leskofar_extend(BOOK(l), NODE, FREE, 1, TEXT("x"), NEW(l));
    ADD(&grown, CONTEXTS, NODE, FREE, X_NAME + 1);
    expect("the lower of two names", has_grown(l, answer, 2, &grown));

    answer = ON_SMALL(leskofar_append_name(BOOK(l), TEXT(""), NEW(l)));
    add_name(&grown, "");
    expect("a name without letters", has_grown(l, answer, 2, &grown));
    answer = ON_SMALL(leskofar_extend(BOOK(l), NODE, FREE, 1, NULL, 0, NEW(l)));
    add_name(&grown, "");
    ADD(&grown, CONTEXTS, NODE, FREE, 3);
    expect("an empty trace is a trace", has_grown(l, answer, 2, &grown));

    answer = ON_SMALL(leskofar_record_trace_point(BOOK(l), NODE, TEXT("="), NEW(l)));
    add_name(&grown, "probe%1");
    add_name(&grown, "=");
    ADD(&grown, CONSTANTS, 2, BOOL);
    ADD(&grown, TERMS, 0, 1);
    grow_equal(&grown, 3, 1, SMALL_TERMS, 4);
    expect("the trace is the equality's name", has_grown(l, answer, 2, &grown));

    answer = ON_SMALL(leskofar_record(BOOK(l), NODE, FREE, INT_TYPE, 1, TEXT("probe%1"), NEW(l)));
    grow_record(&grown);
    expect("the trace is the constant's name", has_grown(l, answer, 2, &grown));
    go_on(answer);
    expect("what is recorded is in use", refused(leskofar_extend(BOOK(l), 2, FREE, 0, NULL, 0, NEW(l)), LESKOFAR_NO_FOREST));
}

/* A name that is found counts for nothing, and one that is not is one too many. */
static void full_name_tests(void) {
    static struct records full;
    full = small;
    while (full.counts[NAMES] < MOST[NAMES]) {
        ADD(&full, NAMES, 0, 0);
    }
    lend(&lent, &full);
    leskofar_appended answer = leskofar_extend(BOOK(&lent), NODE, FREE, 1, TEXT("<"), NEW(&lent));
    grown = full;
    ADD(&grown, CONTEXTS, NODE, FREE, LESS_NAME + 1);
    expect("a known trace among 512 names", has_grown(&lent, answer, 2, &grown));
    lend(&lent, &full);
    expect("an unknown one", refused(leskofar_extend(BOOK(&lent), NODE, FREE, 1, TEXT("new"), NEW(&lent)), LESKOFAR_COUNT_OVER_LIMIT));
    lend(&lent, &full);
    expect("an unknown one with a bad letter, of a term in use",
           refused(leskofar_extend(BOOK(&lent), NODE, USED, 1, TEXT("\x1F"), NEW(&lent)), LESKOFAR_COUNT_OVER_LIMIT));
    lend(&lent, &full);
    expect("an unknown one outside",
           refused(leskofar_extend(BOOK(&lent), NODE, SMALL_TERMS, 1, TEXT("new"), NEW(&lent)), LESKOFAR_NOT_IN_BOOK));
}

/* The flag is 0 for none, and any other number for a trace. */
static void flag_tests(void) {
    static const uint32_t flags[] = {1, 7, 256, UINT32_MAX};
    struct lent *l = &lent;
    leskofar_appended answer;
    for (size_t i = 0; i < sizeof flags / sizeof flags[0]; i++) {
        answer = ON_SMALL(leskofar_extend(BOOK(l), NODE, FREE, flags[i], TEXT("step"), NEW(l)));
        grow_extend(&grown);
        expect("a trace is given", has_grown(l, answer, 2, &grown));
        answer = ON_SMALL(leskofar_record(BOOK(l), NODE, FREE, INT_TYPE, flags[i], TEXT("<"), NEW(l)));
        grow_record(&grown);
        grown.numbers[CONTEXTS][5] = LESS_NAME + 1; /* the last node's trace */
        expect("and recorded", has_grown(l, answer, 2, &grown));
    }
    answer = ON_SMALL(leskofar_extend(BOOK(l), NODE, FREE, 0, TEXT("\x1F"), NEW(l)));
    ADD(&grown, CONTEXTS, NODE, FREE, 0);
    expect("none is given", has_grown(l, answer, 2, &grown));
    answer = ON_SMALL(leskofar_record(BOOK(l), NODE, FREE, INT_TYPE, 0, TEXT("\x1F"), NEW(l)));
    grow_record(&grown);
    expect("none is recorded", has_grown(l, answer, 2, &grown));
}

/* The calls that hang a node below a parent. */
static leskofar_appended node_at(uint32_t parent, uint32_t term) {
    return leskofar_append_node(BOOK(&lent), parent, term, 0, NEW(&lent));
}

static leskofar_appended extend_at(uint32_t parent, uint32_t term) {
    return leskofar_extend(BOOK(&lent), parent, term, 0, NULL, 0, NEW(&lent));
}

static leskofar_appended equality_at(uint32_t parent, uint32_t term) {
    return leskofar_extend_with_equality(BOOK(&lent), parent, X, term, NEW(&lent));
}

static leskofar_appended record_at(uint32_t parent, uint32_t term) {
    return leskofar_record(BOOK(&lent), parent, term, INT_TYPE, 0, NULL, 0, NEW(&lent));
}

static leskofar_appended point_at(uint32_t parent, uint32_t term) {
    (void)term;
    return leskofar_record_trace_point(BOOK(&lent), parent, TEXT("here"), NEW(&lent));
}

/* The last one has a term of its own. */
static leskofar_appended (*const HANGING[])(uint32_t, uint32_t) = {node_at, extend_at, equality_at, record_at, point_at};
enum { HANGING_COUNT = sizeof HANGING / sizeof HANGING[0], WITH_TERM = HANGING_COUNT - 1 };

static void hanging_tests(void) {
    static struct records deep;
    deep = small;
    for (uint32_t node = 2; node <= MOST_DEPTH; node++) {
        ADD(&deep, TERMS, 0, 1);
        ADD(&deep, CONTEXTS, node - 1, (uint32_t)deep.counts[TERMS] - 1, 0);
    }
    for (int i = 0; i < HANGING_COUNT; i++) {
        static const uint32_t outside[] = {SMALL_NODES + 1, SMALL_NODES + 2, UINT32_MAX};
        for (size_t k = 0; k < sizeof outside / sizeof outside[0]; k++) {
            set_small();
            expect("a parent outside", refused(HANGING[i](outside[k], FREE), LESKOFAR_NOT_IN_BOOK));
        }
        lend(&lent, &deep);
        expect("below depth 399", HANGING[i](MOST_DEPTH - 1, FREE).number == MOST_DEPTH + 1);
        lend(&lent, &deep);
        expect("below depth 400", refused(HANGING[i](MOST_DEPTH, FREE), LESKOFAR_TOO_DEEP));
    }
    for (int i = 0; i < WITH_TERM; i++) {
        set_small();
        expect("a term outside", refused(HANGING[i](NODE, SMALL_TERMS), LESKOFAR_NOT_IN_BOOK));
        set_small();
        expect("a term far outside", refused(HANGING[i](NODE, UINT32_MAX), LESKOFAR_NOT_IN_BOOK));
        set_small();
        expect("a term in use", refused(HANGING[i](NODE, USED), LESKOFAR_NO_FOREST));
        lend(&lent, &deep);
        expect("a term in use, too deep", refused(HANGING[i](MOST_DEPTH, USED), LESKOFAR_NO_FOREST));
    }
}

/* A letter from blank to tilde is good; each call that takes a text. */
static void letter_tests(void) {
    static const char *const good[] = {" ", "~", "a b"};
    static const char *const bad[] = {"\x1F", "\x7F", "\x80", "\xFF", "a\n"};
    for (size_t i = 0; i < sizeof good / sizeof good[0]; i++) {
        expect("a good name", ON_SMALL(leskofar_append_name(BOOK(&lent), TEXT(good[i]), NEW(&lent))).number == 2);
        expect("a good trace", ON_SMALL(leskofar_extend(BOOK(&lent), NODE, FREE, 1, TEXT(good[i]), NEW(&lent))).number == 2);
    }
    for (size_t i = 0; i < sizeof bad / sizeof bad[0]; i++) {
        const uint32_t four = LESKOFAR_FIELD_OUT_OF_RANGE;
        expect("a bad name", refused(ON_SMALL(leskofar_append_name(BOOK(&lent), TEXT(bad[i]), NEW(&lent))), four));
        expect("a bad trace", refused(ON_SMALL(leskofar_extend(BOOK(&lent), NODE, FREE, 1, TEXT(bad[i]), NEW(&lent))), four));
        expect("of a term in use", refused(ON_SMALL(leskofar_extend(BOOK(&lent), NODE, USED, 1, TEXT(bad[i]), NEW(&lent))), four));
        expect("recorded", refused(ON_SMALL(leskofar_record(BOOK(&lent), NODE, FREE, 1, 1, TEXT(bad[i]), NEW(&lent))), four));
        expect("as a point", refused(ON_SMALL(leskofar_record_trace_point(BOOK(&lent), NODE, TEXT(bad[i]), NEW(&lent))), four));
    }
}

/* Numbers out of range that are not a parent or a term of the call. */
static void range_tests(void) {
    static const uint32_t four = LESKOFAR_FIELD_OUT_OF_RANGE;
    static const uint32_t beyond[] = {2, 3, UINT32_MAX};
    for (size_t i = 0; i < sizeof beyond / sizeof beyond[0]; i++) {
        uint32_t n = beyond[i];
        expect("a constant's name", refused(ON_SMALL(leskofar_append_constant(BOOK(&lent), n, INT_TYPE, NEW(&lent))), four));
        expect("a constant's type", refused(ON_SMALL(leskofar_append_constant(BOOK(&lent), X_NAME, n, NEW(&lent))), four));
        expect("an equality's constant", refused(ON_SMALL(leskofar_extend_with_equality(BOOK(&lent), NODE, n, FREE, NEW(&lent))), four));
        expect("a record's type", refused(ON_SMALL(leskofar_record(BOOK(&lent), NODE, FREE, n, 0, NULL, 0, NEW(&lent))), four));
        expect("the same of a term in use", refused(ON_SMALL(leskofar_record(BOOK(&lent), NODE, USED, n, 0, NULL, 0, NEW(&lent))), four));
    }
    expect("a node's trace", refused(ON_SMALL(leskofar_append_node(BOOK(&lent), NODE, FREE, 3, NEW(&lent))), four));
    expect("the last trace", ON_SMALL(leskofar_append_node(BOOK(&lent), NODE, FREE, 2, NEW(&lent))).number == 2);
    expect("an equality's next constant is not there yet",
           refused(ON_SMALL(leskofar_extend_with_equality(BOOK(&lent), NODE, X + 1, FREE, NEW(&lent))), four));
}

/* A call below a parent with a trace, where there is no room at all: whatever else holds comes first. */
static uint32_t without_room(const struct records *r, uint32_t parent, uint32_t term, const char *text) {
    lend(&lent, r);
    lent.new_len = 0;
    return leskofar_extend(BOOK(&lent), parent, term, 1, TEXT(text), NEW(&lent)).refusal;
}

static void order_tests(void) {
    static struct records full;
    full = small;
    while (full.counts[NAMES] < MOST[NAMES]) {
        ADD(&full, NAMES, 0, 0);
    }
    for (uint32_t node = 2; node <= MOST_DEPTH; node++) {
        ADD(&full, TERMS, 0, 1);
        ADD(&full, CONTEXTS, node - 1, (uint32_t)full.counts[TERMS] - 1, 0);
    }
    const uint32_t outside = (uint32_t)full.counts[TERMS];
    expect("7 before all", without_room(&full, MOST_DEPTH, outside, "\x1F") == LESKOFAR_NOT_IN_BOOK);
    expect("3 before 4", without_room(&full, MOST_DEPTH, USED, "\x1F") == LESKOFAR_COUNT_OVER_LIMIT);
    full.counts[NAMES]--;
    expect("4 before 5", without_room(&full, MOST_DEPTH, USED, "\x1F") == LESKOFAR_FIELD_OUT_OF_RANGE);
    expect("5 before 6", without_room(&full, MOST_DEPTH, USED, "step") == LESKOFAR_NO_FOREST);
    expect("6 before 10", without_room(&full, MOST_DEPTH, FREE, "step") == LESKOFAR_TOO_DEEP);
    expect("10 at last", without_room(&full, MOST_DEPTH - 1, FREE, "step") == LESKOFAR_BUFFER_TOO_SHORT);
}

int main(void) {
    small_records(&small);
    worked_tests();
    name_tests();
    full_name_tests();
    flag_tests();
    hanging_tests();
    letter_tests();
    range_tests();
    order_tests();
    return close_tests();
}
