/*
 * Refusal 28: books with a name that cannot go to a solver, in each way that this can be, are refused by every call that takes a book,
 * whether the name is used or not; and what looks like it and can go is accepted.
 */
#include "scratch_calls.h"

enum { LITERAL = 2, BUILT_IN = 4, FUNCTION = 5, USER_TYPE = 2 };

static struct records small;
static struct records changed;

static uint32_t new_name(const char *text) {
    add_name(&changed, text);
    return (uint32_t)changed.counts[NAMES] - 1;
}

static uint32_t last_type(void) {
    return USER_TYPE + (uint32_t)changed.counts[TYPES] - 1;
}

/* What a name is given to in a book that has nobody who uses it. */
static void as_type(const char *name) {
    ADD(&changed, TYPES, new_name(name));
}

static void as_constant(const char *name) {
    ADD(&changed, CONSTANTS, new_name(name), INT_TYPE);
}

static void as_function(const char *name) {
    ADD(&changed, FUNCTIONS, new_name(name), INT_TYPE);
}

static void as_literal(const char *name) {
    ADD(&changed, TERMS, LITERAL, new_name(name), INT_TYPE);
}

static void as_type_of_literal(const char *name) {
    as_type(name);
    ADD(&changed, TERMS, LITERAL, X_NAME, last_type());
}

static void as_type_of_tag(const char *name) {
    as_type(name);
    ADD(&changed, TERMS, LITERAL, new_name("%tag"), last_type());
}

static void as_operator(const char *name) {
    ADD(&changed, TERMS, BUILT_IN, new_name(name));
}

static void as_trace(const char *name) {
    ADD(&changed, TERMS, 0, 1);
    ADD(&changed, CONTEXTS, 0, (uint32_t)changed.counts[TERMS] - 1, new_name(name) + 1);
}

static void as_no_record(const char *name) {
    (void)new_name(name);
}

/* The same where node 1, which the calls go to, cannot do without it. */
static void as_used_constant(const char *name) {
    changed.numbers[CONSTANTS][0] = new_name(name);
}

static void as_used_type(const char *name) {
    as_type(name);
    changed.numbers[CONSTANTS][1] = last_type();
}

/* The first term, which is an argument of the node's premise, as another one. */
static void use_term(uint32_t kind, uint32_t first, uint32_t second) {
    memcpy(changed.numbers[TERMS], (const uint32_t[]){kind, first, second}, 3 * sizeof(uint32_t));
}

static void as_used_function(const char *name) {
    as_function(name);
    use_term(FUNCTION, 0, 0);
}

static void as_used_literal(const char *name) {
    use_term(LITERAL, new_name(name), INT_TYPE);
}

static void as_type_of_used_literal(const char *name) {
    as_type(name);
    use_term(LITERAL, X_NAME, last_type());
}

typedef void given_to(const char *);

/* Names that cannot go; that have their bars, and can go but into a literal; and that can go anywhere. */
static const char *const BAD[] = {"",   "|",   "|||", "|a",   "a|",    "a|b",    "|a|b|", "|a||b|",
                                  "\\", "a\\", "\\a", "|\\|", "|a\\|", "| \\ |", "|\\"};
static const char *const BARRED[] = {"||", "| |", "|a b|", "|let|"};
static const char *const PLAIN[] = {"red 40", "let", "!", "40", " ", "(", ";", "\"", "a:b", "x"};

static given_to *const SYMBOLS[] = {as_type, as_constant, as_function};
static given_to *const USED_SYMBOLS[] = {as_used_type, as_used_constant, as_used_function};
static given_to *const LITERALS[] = {as_literal, as_type_of_literal};
static given_to *const USED_LITERALS[] = {as_used_literal, as_type_of_used_literal};
static given_to *const OTHERS[] = {as_operator, as_trace, as_no_record};

#define COUNT_OF(row) (sizeof(row) / sizeof(row)[0])

/* Whether an accepted call has written what it writes on the small book, and a refused one nothing. */
static int is_left_well(const struct scratch_call *call, const struct left *before) {
    if (left.answer[0] == LESKOFAR_ACCEPTED) {
        return call->text == NULL || memcmp(left.text, call->text, strlen(call->text)) == 0;
    }
    static struct left wanted;
    wanted = *before;
    memcpy(wanted.answer, (const uint64_t[ANSWER_NUMBERS]){left.answer[0]}, sizeof wanted.answer);
    return memcmp(&left, &wanted, sizeof left) == 0;
}

static int is_answered(const struct scratch_call *call, uint32_t refusal) {
    static struct left before;
    lend(&lent, &changed);
    text_room = TEXT_SIZE;
    lay_session(call->session);
    before = left;
    make_call(call);
    return left.answer[0] == refusal && is_left_well(call, &before) && all_are(lent.scratch, lent.scratch_len, 0);
}

/* Every call on the small book, in which a name is given to something. */
static void expect_from_all(given_to *give, const char *name, uint32_t refusal) {
    changed = small;
    give(name);
    for (int i = 0; i < SCRATCH_CALL_COUNT; i++) {
        expect(name, is_answered(&SCRATCH_CALLS[i], refusal));
    }
}

static void expect_from_each(given_to *const *give, size_t count, const char *name, uint32_t refusal) {
    for (size_t i = 0; i < count; i++) {
        expect_from_all(give[i], name, refusal);
    }
}

#define EXPECT(row, name, refusal) expect_from_each(row, COUNT_OF(row), name, refusal)

static void refused_tests(void) {
    for (size_t i = 0; i < COUNT_OF(BAD); i++) {
        EXPECT(SYMBOLS, BAD[i], LESKOFAR_BAD_NAME);
        EXPECT(USED_SYMBOLS, BAD[i], LESKOFAR_BAD_NAME);
        if (BAD[i][0] != '\0') {
            EXPECT(LITERALS, BAD[i], LESKOFAR_BAD_NAME);
            EXPECT(USED_LITERALS, BAD[i], LESKOFAR_BAD_NAME);
        }
    }
    for (size_t i = 0; i < COUNT_OF(BARRED); i++) {
        EXPECT(LITERALS, BARRED[i], LESKOFAR_BAD_NAME);
        EXPECT(USED_LITERALS, BARRED[i], LESKOFAR_BAD_NAME);
    }
}

/* Only of what nobody uses, so that all calls write what they write on the small book. */
static void accepted_tests(void) {
    for (size_t i = 0; i < COUNT_OF(PLAIN); i++) {
        EXPECT(SYMBOLS, PLAIN[i], LESKOFAR_ACCEPTED);
        EXPECT(LITERALS, PLAIN[i], LESKOFAR_ACCEPTED);
    }
    for (size_t i = 0; i < COUNT_OF(BARRED); i++) {
        EXPECT(SYMBOLS, BARRED[i], LESKOFAR_ACCEPTED);
    }
    for (size_t i = 0; i < COUNT_OF(BAD); i++) {
        EXPECT(OTHERS, BAD[i], LESKOFAR_ACCEPTED);
    }
    expect_from_all(as_literal, "", LESKOFAR_ACCEPTED);
}

/* A %tag is sent as a number, whatever its type is called. An audit takes no book with one, which is behind 28. */
static void tag_tests(void) {
    static const char *const near[] = {"%tag|", "|%tag|", "%tag\\"};
    for (size_t i = 0; i < COUNT_OF(BARRED); i++) {
        changed = small;
        as_type_of_tag(BARRED[i]);
        for (int k = 0; k < SCRATCH_CALL_COUNT; k++) {
            uint32_t refusal = SCRATCH_CALLS[k].call == call_audit ? LESKOFAR_TAG_IN_BOOK : LESKOFAR_ACCEPTED;
            expect(SCRATCH_CALLS[k].name, is_answered(&SCRATCH_CALLS[k], refusal));
        }
    }
    for (size_t i = 0; i < COUNT_OF(near); i++) {
        expect_from_all(as_literal, near[i], LESKOFAR_BAD_NAME);
    }
    expect_from_all(as_type_of_tag, "|", LESKOFAR_BAD_NAME);
}

int main(void) {
    traced_records(&small);
    bring_sessions(&small);
    refused_tests();
    accepted_tests();
    tag_tests();
    return close_tests();
}
