/* Where refusal 28 stands: behind 6, before all that comes behind 6, and in the writer at the end of what the new book is tested for. */
#include "refused_books.h"
#include "scratch_calls.h"

enum { LITERAL = 2, USER_TYPE = 2, OUTSIDE = 999 };

static struct records small;
static struct records bad; /* the small book and a constant with an empty name */

/* Calls with a fault of their own that the book has no part in, and what it is refused on the small book. */
static uint32_t print_outside(void) {
    return leskofar_print(BOOK(&lent), OUTSIDE, 0, 0, 0, WRITTEN).refusal;
}

static uint32_t print_without_room(void) {
    return leskofar_print(BOOK(&lent), PREMISE, 0, 0, 0, NULL, 0).refusal;
}

static uint32_t trace_outside(void) {
    return leskofar_trace(BOOK(&lent), OUTSIDE, WRITTEN).refusal;
}

static uint32_t listing_outside(void) {
    return leskofar_listing(BOOK(&lent), OUTSIDE, FREE, WRITTEN).refusal;
}

static uint32_t move_outside(void) {
    return leskofar_move(BOOK(&lent), IMAGE, OUTSIDE, WRITTEN).refusal;
}

static uint32_t ask_outside(void) {
    return leskofar_ask(BOOK(&lent), IMAGE, NODE, OUTSIDE, WRITTEN).refusal;
}

static uint32_t move_without_session(void) {
    return leskofar_move(BOOK(&lent), NULL, 0, NODE, WRITTEN).refusal;
}

static uint32_t move_too_early(void) {
    lay_session(ASKED);
    return leskofar_move(BOOK(&lent), IMAGE, NODE, WRITTEN).refusal;
}

static uint32_t reply_without_session(void) {
    return leskofar_reply(BOOK(&lent), NULL, 0, 1, TEXT("sat"), WRITTEN, REASON).refusal;
}

static uint32_t reply_unasked(void) {
    return leskofar_reply(BOOK(&lent), IMAGE, 1, TEXT("sat"), WRITTEN, REASON).refusal;
}

static uint32_t model_unasked(void) {
    return leskofar_model(BOOK(&lent), IMAGE, TEXT("sat"), 1, TEXT("(x 1)"), WRITTEN, REASON).refusal;
}

static uint32_t widen_without_session(void) {
    return leskofar_widen(BOOK(&lent), NULL, 0, IMAGE);
}

static uint32_t narrow_without_session(void) {
    return leskofar_narrow(BOOK(&lent), NULL, 0, NARROW_IMAGE);
}

static uint32_t too_many_nodes(void) {
    static const uint8_t nodes[(LESKOFAR_NODES_MOST + 1) * NUMBER];
    return leskofar_nodes_test(BOOK(&lent), nodes, sizeof nodes).refusal;
}

static uint32_t nodes_outside(void) {
    const uint8_t nodes[NUMBER] = {SMALL_NODES + 1};
    return leskofar_nodes_test(BOOK(&lent), nodes, sizeof nodes).refusal;
}

static uint32_t audit_outside(void) {
    const uint8_t questions[2 * NUMBER] = {SMALL_NODES + 1};
    return leskofar_audit(BOOK(&lent), questions, sizeof questions, TEXT(QUESTION)).refusal;
}

static uint32_t audit_foreign(void) {
    return leskofar_audit(BOOK(&lent), NULL, 0, TEXT("x\n")).refusal;
}

static uint32_t node_outside(void) {
    return leskofar_append_node(BOOK(&lent), OUTSIDE, FREE, 0, NEW(&lent)).refusal;
}

static uint32_t extend_outside(void) {
    return leskofar_extend(BOOK(&lent), NODE, OUTSIDE, 0, NULL, 0, NEW(&lent)).refusal;
}

static uint32_t equality_outside(void) {
    return leskofar_extend_with_equality(BOOK(&lent), OUTSIDE, X, FREE, NEW(&lent)).refusal;
}

static uint32_t record_outside(void) {
    return leskofar_record(BOOK(&lent), OUTSIDE, FREE, INT_TYPE, 0, NULL, 0, NEW(&lent)).refusal;
}

static uint32_t point_outside(void) {
    return leskofar_record_trace_point(BOOK(&lent), OUTSIDE, TEXT("here"), NEW(&lent)).refusal;
}

static uint32_t name_with_bad_letter(void) {
    return leskofar_append_name(BOOK(&lent), TEXT("\x1F"), NEW(&lent)).refusal;
}

static uint32_t constant_outside(void) {
    return leskofar_append_constant(BOOK(&lent), OUTSIDE, INT_TYPE, NEW(&lent)).refusal;
}

static uint32_t term_in_use(void) {
    const uint8_t arguments[NUMBER] = {USED};
    return leskofar_append_term(BOOK(&lent), 4, LESS_NAME, 0, 0, 0, 0, 0, arguments, sizeof arguments, NULL, 0, NEW(&lent)).refusal;
}

static const struct {
    uint32_t (*call)(void);
    uint32_t refusal;
} FAULTY[] = {
    {print_outside, LESKOFAR_NOT_IN_BOOK},
    {print_without_room, LESKOFAR_BUFFER_TOO_SHORT},
    {trace_outside, LESKOFAR_NOT_IN_BOOK},
    {listing_outside, LESKOFAR_NOT_IN_BOOK},
    {move_outside, LESKOFAR_NOT_IN_BOOK},
    {ask_outside, LESKOFAR_NOT_IN_BOOK},
    {move_without_session, LESKOFAR_NO_SESSION},
    {move_too_early, LESKOFAR_QUESTION_OPEN},
    {reply_without_session, LESKOFAR_NO_SESSION},
    {reply_unasked, LESKOFAR_NO_REPLY_OWED},
    {model_unasked, LESKOFAR_NO_MODEL_OWED},
    {widen_without_session, LESKOFAR_NO_SESSION},
    {narrow_without_session, LESKOFAR_NO_SESSION},
    {too_many_nodes, LESKOFAR_COUNT_OVER_LIMIT},
    {nodes_outside, LESKOFAR_NOT_IN_BOOK},
    {audit_outside, LESKOFAR_NOT_IN_BOOK},
    {audit_foreign, LESKOFAR_FOREIGN_LINE},
    {node_outside, LESKOFAR_NOT_IN_BOOK},
    {extend_outside, LESKOFAR_NOT_IN_BOOK},
    {equality_outside, LESKOFAR_NOT_IN_BOOK},
    {record_outside, LESKOFAR_NOT_IN_BOOK},
    {point_outside, LESKOFAR_NOT_IN_BOOK},
    {name_with_bad_letter, LESKOFAR_FIELD_OUT_OF_RANGE},
    {constant_outside, LESKOFAR_FIELD_OUT_OF_RANGE},
    {term_in_use, LESKOFAR_NO_FOREST},
};

static uint32_t refusal_on(const struct records *r, uint32_t (*call)(void)) {
    lend(&lent, r);
    lay_session(FRESH);
    return call();
}

static void behind_tests(void) {
    for (size_t i = 0; i < sizeof FAULTY / sizeof FAULTY[0]; i++) {
        expect("a fault of the call's own", refusal_on(&small, FAULTY[i].call) == FAULTY[i].refusal);
        expect("28 before it", refusal_on(&bad, FAULTY[i].call) == LESKOFAR_BAD_NAME);
    }
}

/* Each book that is refused by itself, with the empty name besides. */
static void before_tests(void) {
    static struct records r;
    for (int i = 0; i < REFUSED_BOOK_COUNT; i++) {
        for (int call = 0; call < SCRATCH_CALL_COUNT; call++) {
            r = bad;
            REFUSED_BOOKS[i].lend(&lent, &r);
            text_room = TEXT_SIZE;
            lay_session(SCRATCH_CALLS[call].session);
            make_call(&SCRATCH_CALLS[call]);
            expect(SCRATCH_CALLS[call].name, left.answer[0] == REFUSED_BOOKS[i].refusal);
        }
    }
}

/* The small book with names for what is to grow: without letters, with a bar, and with bars around it, of which there is a type too. */
enum { EMPTY = 2, HALF_BARRED, BARRED, TAG_NAME };

static void growing_records(struct records *r) {
    *r = small;
    add_name(r, "");
    add_name(r, "a|");
    add_name(r, "|red 40|");
    add_name(r, "%tag");
    ADD(r, TYPES, BARRED);
    lend(&lent, r);
}

static leskofar_appended append_literal(uint32_t name, uint32_t type) {
    return leskofar_append_term(BOOK(&lent), LITERAL, name, type, 0, 0, 0, 0, NULL, 0, NULL, 0, NEW(&lent));
}

#define ON_GROWING(call) (growing_records(&r), (call))

/* The book is good, and would become 28. */
static void growth_tests(void) {
    static struct records r;
    const uint32_t bad_name = LESKOFAR_BAD_NAME;
    struct lent *l = &lent;
    expect("the book", ON_GROWING(leskofar_book_test(BOOK(l))) == LESKOFAR_ACCEPTED);
    expect("a constant without letters", was_refused(l, ON_GROWING(leskofar_append_constant(BOOK(l), EMPTY, INT_TYPE, NEW(l))), bad_name));
    expect("a constant with a bar", was_refused(l, ON_GROWING(leskofar_append_constant(BOOK(l), HALF_BARRED, INT_TYPE, NEW(l))), bad_name));
    expect("a constant between bars", ON_GROWING(leskofar_append_constant(BOOK(l), BARRED, INT_TYPE, NEW(l))).number == 1);
    expect("a literal with a bar", was_refused(l, ON_GROWING(append_literal(HALF_BARRED, INT_TYPE)), bad_name));
    expect("a literal between bars", was_refused(l, ON_GROWING(append_literal(BARRED, INT_TYPE)), bad_name));
    expect("a literal of a type with bars", was_refused(l, ON_GROWING(append_literal(X_NAME, USER_TYPE)), bad_name));
    expect("a literal without letters", ON_GROWING(append_literal(EMPTY, INT_TYPE)).number == SMALL_TERMS);
    expect("%tag of a type with bars", ON_GROWING(append_literal(TAG_NAME, USER_TYPE)).number == SMALL_TERMS);
    expect("a name with a bar", ON_GROWING(leskofar_append_name(BOOK(l), TEXT("\\|"), NEW(l))).number == TAG_NAME + 1);
    expect("a trace with a bar", ON_GROWING(leskofar_extend(BOOK(l), NODE, FREE, 1, TEXT("a|\\"), NEW(l))).number == SMALL_NODES + 1);
    expect("a field out of range before it", was_refused(l, ON_GROWING(append_literal(HALF_BARRED, OUTSIDE)), LESKOFAR_FIELD_OUT_OF_RANGE));
    growing_records(&r);
    l->new_len = 0;
    expect("28 before 10", was_refused(l, append_literal(HALF_BARRED, INT_TYPE), bad_name));
}

int main(void) {
    traced_records(&small);
    bring_sessions(&small);
    bad = small;
    add_name(&bad, "");
    ADD(&bad, CONSTANTS, (uint32_t)bad.counts[NAMES] - 1, INT_TYPE);
    before_tests();
    behind_tests();
    growth_tests();
    return close_tests();
}
