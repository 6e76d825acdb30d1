/*
 * Names that are no simple symbols, in every text that a call writes: between bars where they are the names of types, constants and
 * functions, and as the book has them in operators, inside literals, in traces and in listings. All texts are written out by hand.
 */
#include "text_calls.h"

enum { RED, BOX, SHADE, RESERVED, KEPT, FAR, DARK, EQUALS, NO_LETTERS, BAR, SHADES = USER_TYPE };
enum { BOX_CONSTANT, SHADE_CONSTANT, RESERVED_CONSTANT, KEPT_CONSTANT };

/* The nodes, and the terms that are looked at. */
enum { ROOT, FAR_NODE, KEPT_NODE };
enum { APPLIED = 2, PREMISE = 4, LET_TERM = 14, RULE, KEPT_TERM = 18, BARE, RED_OPERATOR, EMPTY_OPERATOR, TRUE_LITERAL, RESERVED_TERM };

static void add_names(void) {
    static const char *const names[] = {"red 40", "box 1", "shade no 1", "let", "|kept|", "how far", "dark red", "=", "", "a|b\\"};
    for (size_t i = 0; i < sizeof names / sizeof names[0]; i++) {
        add_name(&records, names[i]);
    }
}

/* Adds an application with a list of its own. */
static void add_applied(uint32_t kind, uint32_t applied, uint32_t first, uint32_t second) {
    ADD(&records, TERMS, kind, applied, (uint32_t)records.counts[LISTS], 2);
    ADD(&records, LISTS, first);
    ADD(&records, LISTS, second);
}

static void add_terms(void) {
    ADD(&records, TERMS, LITERAL, DARK, SHADES);
    ADD(&records, TERMS, ID, BOX_CONSTANT);
    add_applied(FUNCTION, 0, 0, 1);
    ADD(&records, TERMS, INTEGER, 3);
    add_applied(BUILT_IN, EQUALS, 2, 3);
    ADD(&records, TERMS, ID, SHADE_CONSTANT);
    ADD(&records, TERMS, INTEGER, 7);
    add_applied(FUNCTION, 0, 5, 6);
    ADD(&records, TERMS, INTEGER, 4);
    ADD(&records, TERMS, ID, SHADE_CONSTANT);
    ADD(&records, TERMS, ID, BOX_CONSTANT);
    add_applied(FUNCTION, 0, 9, 10);
    ADD(&records, TERMS, ID, BOX_CONSTANT);
    add_applied(BUILT_IN, EQUALS, 11, 12);
    ADD(&records, TERMS, LET, BOX_CONSTANT, 8, 13);
    ADD(&records, TERMS, QUANTIFIER, 1, (uint32_t)records.counts[LISTS], 2, (uint32_t)records.counts[LISTS] + 2, 1, LET_TERM);
    ADD(&records, LISTS, SHADE_CONSTANT);
    ADD(&records, LISTS, RESERVED_CONSTANT);
    ADD(&records, LISTS, 0);
    ADD(&records, PATTERNS, (uint32_t)records.counts[LISTS], 1);
    ADD(&records, LISTS, 7);
    ADD(&records, TERMS, ID, KEPT_CONSTANT);
    ADD(&records, TERMS, ID, KEPT_CONSTANT);
    add_applied(BUILT_IN, EQUALS, 16, 17);
    ADD(&records, TERMS, FUNCTION, 0);
    ADD(&records, TERMS, BUILT_IN, RED);
    ADD(&records, TERMS, BUILT_IN, NO_LETTERS);
    ADD(&records, TERMS, LITERAL, DARK, BOOL);
    ADD(&records, TERMS, ID, RESERVED_CONSTANT);
}

/* A name is shared by a type and an operator, and names of no letters and with a bar by an operator and by traces. */
static void set_up(void) {
    memset(&records, 0, sizeof records);
    add_names();
    ADD(&records, TYPES, RED);
    ADD(&records, CONSTANTS, BOX, INT);
    ADD(&records, CONSTANTS, SHADE, SHADES);
    ADD(&records, CONSTANTS, RESERVED, BOOL);
    ADD(&records, CONSTANTS, KEPT, SHADES);
    ADD(&records, FUNCTIONS, FAR, INT, 0, 2);
    ADD(&records, LISTS, SHADES);
    ADD(&records, LISTS, INT);
    add_terms();
    ADD(&records, CONTEXTS, ROOT, PREMISE, BAR + 1);
    ADD(&records, CONTEXTS, FAR_NODE, KEPT_TERM, RED + 1);
    lay_book();
}

#define OF_FUNCTION "(declare-sort |red 40| 0)\n(declare-fun |how far| (|red 40| Int) Int)\n"
#define OF_CONSTANTS "(declare-fun |dark red:red 40| () |red 40|)\n(declare-fun |box 1| () Int)\n"
#define AT_FAR "(push 1)\n" OF_FUNCTION OF_CONSTANTS "(assert (= (|how far| |dark red:red 40| |box 1|) 3))\n"
#define AT_KEPT "(push 1)\n(declare-fun |kept| () |red 40|)\n(assert (= |kept| |kept|))\n"
#define LET_TEXT "(let ((|box 1| 4)) (= (|how far| |shade no 1| |box 1|) |box 1|))"
#define RULE_TEXT "(forall ((|shade no 1| |red 40|) (|let| Bool)) (! " LET_TEXT " :pattern ((|how far| |shade no 1| 7))))"
#define CHECK "(check-sat)\n"

static void print_tests(void) {
    expect("an application", writes(print_call, APPLIED, 0, "(|how far| |dark red:red 40| |box 1|)"));
    expect("the same on lines", writes(print_call, APPLIED, 1, "(|how far|\n     |dark red:red 40|\n     |box 1|)"));
    expect("a let", writes(print_call, LET_TERM, 0, LET_TEXT));
    expect("a quantifier", writes(print_call, RULE, 0, RULE_TEXT));
    expect("a name that has its bars", writes(print_call, KEPT_TERM, 0, "(= |kept| |kept|)"));
    expect("a function without arguments", writes(print_call, BARE, 0, "|how far|"));
    expect("a reserved word", writes(print_call, RESERVED_TERM, 0, "|let|"));
    expect("an operator with a type's name", writes(print_call, RED_OPERATOR, 0, "red 40"));
    expect("an operator without letters", writes(print_call, EMPTY_OPERATOR, 0, "()"));
    expect("a literal of Bool", writes(print_call, TRUE_LITERAL, 0, "|dark red:bool|"));
}

static void session_tests(void) {
    expect("a move", writes(move_call, FAR_NODE, 0, AT_FAR));
    expect("a move further down", writes(move_call, KEPT_NODE, 0, AT_FAR AT_KEPT));
    expect("a question about a quantifier",
           writes(ask_call, ROOT, RULE, "(push 1)\n" OF_FUNCTION "(push 1)\n(assert (not " RULE_TEXT "))\n" CHECK));
    expect("one where all is declared",
           writes(ask_call, FAR_NODE, RULE, AT_FAR "(push 1)\n(push 1)\n(assert (not " RULE_TEXT "))\n" CHECK));
    expect("one about a reserved word",
           writes(ask_call, ROOT, RESERVED_TERM, "(push 1)\n(declare-fun |let| () Bool)\n(push 1)\n(assert (not |let|))\n" CHECK));
    expect("one about a literal of Bool", writes(ask_call, ROOT, TRUE_LITERAL,
                                                 "(push 1)\n(declare-fun |dark red:bool| () Bool)\n(push 1)\n"
                                                 "(assert (not |dark red:bool|))\n" CHECK));
    expect("one about an operator", writes(ask_call, ROOT, RED_OPERATOR, "(push 1)\n(push 1)\n(assert (not red 40))\n" CHECK));
}

static void raw_tests(void) {
    expect("a trace", writes(trace_call, KEPT_NODE, 0, "  a|b\\\n  red 40\n"));
    expect("a listing", writes(listing_call, KEPT_NODE, RESERVED_TERM,
                               "----- Proof obligation:\n"
                               "  =(how far(dark red:red 40, box 1), 3)\n"
                               "  =(|kept|, |kept|)\n"
                               "  |-\n"
                               "  let\n"));
    expect("a listing of a quantifier", writes(listing_call, ROOT, RULE,
                                               "----- Proof obligation:\n"
                                               "  |-\n"
                                               "  (forall shade no 1: red 40, let: bool pattern how far(shade no 1, 7)"
                                               " (val box 1: int := 4 =(how far(shade no 1, box 1), box 1)))\n"));
}

/* What a fresh session sends is accepted by an audit, and the same with a name of ours without its bars is not. */
static void audit_tests(void) {
    static const char undeclared[] = AT_FAR "(push 1)\n(push 1)\n(assert (not |dark red:bool|))\n" CHECK;
    static const char own[] = AT_FAR "(push 1)\n(declare-fun |dark red:bool| () Bool)\n(push 1)\n(assert (not |dark red:bool|))\n" CHECK;
    static const char bare[] = AT_FAR "(push 1)\n(declare-fun dark red:bool () Bool)\n(push 1)\n(assert (not |dark red:bool|))\n" CHECK;
    const uint8_t questions[2 * NUMBER] = {[0] = FAR_NODE, [NUMBER] = TRUE_LITERAL};
    const struct {
        const char *script;
        uint32_t differs;
    } audits[] = {{own, 0}, {undeclared, 1}, {bare, 1}};
    for (size_t i = 0; i < sizeof audits / sizeof audits[0]; i++) {
        leskofar_audited answer =
            leskofar_audit(LENT, questions, sizeof questions, (const uint8_t *)audits[i].script, strlen(audits[i].script));
        expect("an audit", answer.refusal == LESKOFAR_ACCEPTED && answer.differs == audits[i].differs);
    }
}

int main(void) {
    set_up();
    expect("the book", leskofar_book_test(LENT) == LESKOFAR_ACCEPTED);
    print_tests();
    session_tests();
    raw_tests();
    audit_tests();
    return close_tests();
}
