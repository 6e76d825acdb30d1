/*
 * The stack that a call needs for the deepest books: measured by painting a thread's stack, and tried on a thread that has no more than
 * the header promises and what a thread itself takes, with no page mapped behind it.
 */
#define _DEFAULT_SOURCE
#include "measured_stack.h"
#include "nests.h"

enum { BOOK_SIZE = 65536, TEXT_SIZE = 1 << 25 };

/* A narrow image: its kind, how deep its session may be, and where its levels begin, as they do in a wide one. */
enum { NARROW_KIND = 1, NARROW_DEPTH = 64, LEVELS_AT = 16 };

static uint8_t book[BOOK_SIZE];
static struct written written;
static uint8_t scratch[LESKOFAR_SCRATCH];
static uint8_t image[LESKOFAR_IMAGE];
static uint8_t narrow[LESKOFAR_NARROW_IMAGE];
static uint8_t text[TEXT_SIZE];
static uint8_t new_book[LESKOFAR_BOOK];

/* A script for an audit, and the first check-sat that differs in it. */
static uint8_t script[LESKOFAR_SCRIPT_MOST];
static size_t script_len;
static uint32_t wanted_differs;

#define BOOK book, written.len, scratch, sizeof scratch
#define NEW new_book, sizeof new_book

/* Each call gives its refusal. */
static uint32_t print_line(uint32_t term) {
    return leskofar_print(BOOK, term, 0, 0, 0, text, sizeof text).refusal;
}

static uint32_t print_lines(uint32_t term) {
    return leskofar_print(BOOK, term, 0, 1, 0, text, sizeof text).refusal;
}

static uint32_t trace_node(uint32_t node) {
    return leskofar_trace(BOOK, node, text, sizeof text).refusal;
}

static uint32_t list_at_root(uint32_t goal) {
    return leskofar_listing(BOOK, 0, goal, text, sizeof text).refusal;
}

static uint32_t list_premises(uint32_t node) {
    return leskofar_listing(BOOK, node, 0, text, sizeof text).refusal;
}

static uint32_t name_operator(uint32_t code) {
    return leskofar_operator(code, text, sizeof text).refusal;
}

static uint32_t test_book(uint32_t unused) {
    (void)unused;
    return leskofar_book_test(BOOK);
}

static uint32_t move_down(uint32_t node) {
    (void)leskofar_fresh(image, sizeof image);
    return leskofar_move(BOOK, image, sizeof image, node, text, sizeof text).refusal;
}

/* Down to the node, up, and down again: each walk begins at the levels that the one before it left. */
static uint32_t test_nodes(uint32_t node) {
    uint8_t nodes[3 * NUMBER] = {0};
    put_number(nodes, node);
    put_number(nodes + 2 * NUMBER, node);
    leskofar_nodes_tested answer = leskofar_nodes_test(BOOK, nodes, sizeof nodes);
    return answer.result == LESKOFAR_NODES_PASS ? answer.refusal : LESKOFAR_MISSING_AXIOM;
}

static uint32_t ask_at_root(uint32_t goal) {
    (void)leskofar_fresh(image, sizeof image);
    return leskofar_ask(BOOK, image, sizeof image, 0, goal, text, sizeof text).refusal;
}

/* A question at the node where the session stands, to its end: each call tests the image by a walk to that node. */
static uint32_t question(uint32_t node) {
    static const uint8_t reply[] = {'s', 'a', 't'};
    uint8_t reason[sizeof reply];
    leskofar_answer answer =
        leskofar_ask(BOOK, image, sizeof image, node, 0, text, sizeof text);
    if (answer.refusal == LESKOFAR_ACCEPTED) {
        answer = leskofar_reply(BOOK, image, sizeof image, 1, reply, sizeof reply, text, sizeof text,
                                NULL, 0);
    }
    if (answer.refusal == LESKOFAR_ACCEPTED) {
        answer = leskofar_model(BOOK, image, sizeof image, reply, sizeof reply, 0, NULL, 0, text,
                                sizeof text, reason, sizeof reason);
    }
    return answer.refusal;
}

static uint32_t ask_at_last(uint32_t goal) {
    (void)leskofar_fresh(image, sizeof image);
    return leskofar_ask(BOOK, image, sizeof image, written.node, goal, text, sizeof text).refusal;
}

/* The last term as a goal: accepted here where the script is judged as it must be. */
static uint32_t audit_at(uint32_t node) {
    uint8_t questions[2 * NUMBER];
    put_number(questions, node);
    put_number(questions + NUMBER, written.term);
    leskofar_audited answer = leskofar_audit(BOOK, questions, sizeof questions, script, script_len);
    return answer.differs == wanted_differs ? answer.refusal : LESKOFAR_CHECKS_DIFFER;
}

/* The turns of the session where it stands: accepted here where they answer as they must. */
static uint32_t turn_back(uint32_t wanted) {
    uint32_t answer = leskofar_narrow(BOOK, image, sizeof image, narrow, sizeof narrow);
    return answer == wanted ? LESKOFAR_ACCEPTED : LESKOFAR_NO_SESSION;
}

static uint32_t widen(uint32_t wanted) {
    uint32_t answer = leskofar_widen(BOOK, narrow, sizeof narrow, image, sizeof image);
    return answer == wanted ? LESKOFAR_ACCEPTED : LESKOFAR_NO_SESSION;
}

/* The writer's calls: with room for every book, and below a parent whose depth is in a new name. */
static const uint8_t trace[] = {'s', 't', 'e', 'p'};

static uint32_t append_name(uint32_t unused) {
    (void)unused;
    return leskofar_append_name(BOOK, trace, sizeof trace, NEW).refusal;
}

static uint32_t append_constant(uint32_t name) {
    return leskofar_append_constant(BOOK, name, INT, NEW).refusal;
}

static uint32_t append_term(uint32_t argument) {
    uint8_t arguments[NUMBER];
    put_number(arguments, argument);
    return leskofar_append_term(BOOK, BUILT_IN, 0, 0, 0, 0, 0, 0, arguments, sizeof arguments, NULL, 0, NEW).refusal;
}

static uint32_t append_node(uint32_t parent) {
    return leskofar_append_node(BOOK, parent, written.term, 0, NEW).refusal;
}

static uint32_t extend(uint32_t parent) {
    return leskofar_extend(BOOK, parent, written.term, 1, trace, sizeof trace, NEW).refusal;
}

static uint32_t extend_with_equality(uint32_t parent) {
    return leskofar_extend_with_equality(BOOK, parent, 0, written.term, NEW).refusal;
}

static uint32_t record(uint32_t parent) {
    return leskofar_record(BOOK, parent, written.term, INT, 1, trace, sizeof trace, NEW).refusal;
}

static uint32_t record_trace_point(uint32_t parent) {
    return leskofar_record_trace_point(BOOK, parent, trace, sizeof trace, NEW).refusal;
}

/* The session's image as a narrow one, also where no narrow session is so deep. */
static void spell_narrow(void) {
    memcpy(narrow, image, LEVELS_AT);
    put_number(narrow, NARROW_KIND);
    for (size_t place = 0; place < sizeof narrow - LEVELS_AT; place++) {
        narrow[LEVELS_AT + place] = image[LEVELS_AT + 2 * place];
    }
}

/* Of the session where it stands. */
static void measure_turns(struct given g, uint32_t depth) {
    const int is_deep = depth > NARROW_DEPTH;
    measure("turning back", g, LESKOFAR_SESSION_STACK, turn_back, is_deep ? LESKOFAR_TOO_DEEP_FOR_NARROW : LESKOFAR_ACCEPTED);
    spell_narrow();
    measure("widening", g, LESKOFAR_SESSION_STACK, widen, is_deep ? LESKOFAR_NO_SESSION : LESKOFAR_ACCEPTED);
}

/* The script is our own text; where that is longer than any script, which an audit has to find out, a check-sat alone. */
static void make_script(uint32_t node) {
    static const char check[] = "(check-sat)\n";
    (void)leskofar_fresh(image, sizeof image);
    leskofar_answer asked = leskofar_ask(BOOK, image, sizeof image, node, written.term, text, sizeof text);
    stop_if(asked.refusal != LESKOFAR_ACCEPTED, "make a script");
    int is_long = asked.text > sizeof script;
    script_len = is_long ? strlen(check) : (size_t)asked.text;
    memcpy(script, is_long ? (const uint8_t *)check : text, script_len);
    wanted_differs = is_long ? 1 : 0;
}

static void measure_audit(const char *name, struct given g, uint32_t node) {
    make_script(node);
    measure(name, g, LESKOFAR_SESSION_STACK, audit_at, node);
}

/* Of the book just written: its last term asked at the root and at the last node, and audits of what is sent. */
static void measure_asks(struct given g) {
    measure("ask", g, LESKOFAR_SESSION_STACK, ask_at_root, written.term);
    measure("ask at the node", g, LESKOFAR_SESSION_STACK, ask_at_last, written.term);
    measure_audit("audit", g, 0);
    measure_audit("audit at the node", g, written.node);
}

/*
 * The same of a book whose last node is so deep, and before that down to the node, the test of a list with it, and a question and the
 * turns there.
 */
static void measure_session(struct given g, uint32_t depth) {
    measure("move", g, LESKOFAR_SESSION_STACK, move_down, written.node);
    measure("nodes test", g, LESKOFAR_SESSION_STACK, test_nodes, written.node);
    measure("question", g, LESKOFAR_SESSION_STACK, question, written.node);
    measure_turns(g, depth);
    measure_asks(g);
}

/* Of the book just written: its last term in both layouts and listed, and its last node's premises. */
static void measure_texts(struct given g) {
    measure("print", g, LESKOFAR_STACK, print_line, written.term);
    measure("print on lines", g, LESKOFAR_STACK, print_lines, written.term);
    measure("listing of a goal", g, LESKOFAR_STACK, list_at_root, written.term);
    measure("listing of a premise", g, LESKOFAR_STACK, list_premises, written.node);
}

/* Of the book just written, as far as it has room for it: a name and a constant. */
static void measure_growth(struct given g) {
    measure("append name", g, LESKOFAR_STACK, append_name, 0);
    measure("append constant", g, LESKOFAR_STACK, append_constant, 0);
}

/* The same of the calls that need a term in no use, which is appended first, below the deepest node that may have one below it. */
static void measure_all_growth(struct given g) {
    uint32_t parent = MOST_DEPTH - 1;
    leskofar_appended free_term = leskofar_append_term(BOOK, ID, 0, 0, 0, 0, 0, 0, NULL, 0, NULL, 0, NEW);
    stop_if(free_term.refusal != LESKOFAR_ACCEPTED, "append a term");
    memcpy(book, new_book, free_term.length);
    written.len = free_term.length;
    written.term = free_term.number;
    measure_growth(g);
    measure("append term", g, LESKOFAR_STACK, append_term, written.term);
    measure("append node", g, LESKOFAR_STACK, append_node, parent);
    measure("extend", g, LESKOFAR_STACK, extend, parent);
    measure("extend with equality", g, LESKOFAR_STACK, extend_with_equality, parent);
    measure("record", g, LESKOFAR_STACK, record, parent);
    measure("record trace point", g, LESKOFAR_STACK, record_trace_point, parent);
}

static void measure_shape(const struct shape *s) {
    const struct given in_node = {s->name, "in a node"};
    const struct given own = {s->name, "in the goal's own axiom"};
    written = write_nest(book, s, leaf);
    measure_texts(in_node);
    measure_session(in_node, 1);
    measure_growth(in_node);
    written = write_nest(book, s, least_number);
    measure_texts((struct given){s->name, "around a negative number"});
    written = write_axioms(book, s, 1);
    measure_session((struct given){s->name, "in an axiom"}, 1);
    written = write_axioms(book, s, MOST_AXIOMS);
    measure_session((struct given){s->name, "in as many axioms as there can be"}, 1);
    written = write_own_axiom(book, s);
    measure("ask", own, LESKOFAR_SESSION_STACK, ask_at_root, written.term);
    measure_audit("audit", own, 0);
}

/* The same shape in as many terms as a chain of nodes leaves. */
static void measure_deep_shape(const struct shape *s) {
    written = write_deep_nest(book, s, NARROW_DEPTH);
    measure_session((struct given){s->name, "in a node 64 deep"}, NARROW_DEPTH);
    written = write_deep_nest(book, s, MOST_DEPTH);
    measure_session((struct given){s->name, "in a node 400 deep"}, MOST_DEPTH);
    written = write_deep_axiom(book, s, MOST_DEPTH);
    measure_asks((struct given){s->name, "in the goal's own axiom, 400 nodes deep"});
}

int main(void) {
    const struct given chain = {"nodes", "below each other"};
    for (size_t i = 0; i < sizeof shapes / sizeof shapes[0]; i++) {
        measure_shape(&shapes[i]);
        measure_deep_shape(&shapes[i]);
    }
    written = write_chain(book);
    measure("book test", chain, LESKOFAR_STACK, test_book, 0);
    measure("trace", chain, LESKOFAR_STACK, trace_node, written.node);
    measure("listing", chain, LESKOFAR_STACK, list_premises, written.node);
    measure_session(chain, MOST_DEPTH);
    measure_all_growth(chain);
    measure("operator", (struct given){"any", "code"}, LESKOFAR_STACK, name_operator, 1);
    return close_tests();
}
