/* The library as C sees it: the header is enough, NULL stands for an empty buffer, and each answer has its name. */
#include "expect.h"
#include "made_book.h"
#include <leskofar.h>
#include <string.h>

enum { FILL = 0xA5, BOOK_SIZE = 512, TEXT_SIZE = 128, TAG = 42 };

/* A book without records: every section is empty and begins behind the contents. */
static size_t empty_book(uint8_t *book) {
    const struct section none[SECTIONS - 1] = {{NULL, 0, 0}};
    return write_book(book, "", none);
}

/* Terms x, %tag and (and x %tag), and a node with the trace "x". */
enum { X_TERM = 0, AND_TERM = 2, TERMS = 3, NODES = 1 };

static size_t small_book(uint8_t *book) {
    static const uint32_t names[] = {0, 1, 1, 3, 4, 4};
    static const uint32_t constants[] = {0, 1};
    static const uint32_t terms[] = {3, 0, 0, 0, 0, 0, 0, 2, 2, 1, 0, 0, 0, 0, 4, 1, 0, 2, 0, 0, 0};
    static const uint32_t contexts[] = {0, AND_TERM, 1};
    static const uint32_t lists[] = {0, 1};
    const struct section sections[SECTIONS - 1] = {
        {names, 3, 2}, {NULL, 0, 0},      {constants, 1, 2},    {NULL, 0, 0}, {NULL, 0, 0},
        {NULL, 0, 0},  {terms, TERMS, 7}, {contexts, NODES, 3}, {lists, 2, 1},
    };
    return write_book(book, "xand%tag", sections);
}

/*
 * Numbers, each a term: 0 and what stands around it, then the ends of the range. Behind them the arguments of (+ -5 %tag) and that sum,
 * and 5 with a minus applied to it.
 */
enum { NUMBERS = 7, SUM_TERM = 9, MINUS_TERM = 11, NUMBER_TERMS = 12 };

static size_t number_book(uint8_t *book) {
    static const uint32_t names[] = {0, 1, 1, 1, 2, 4};
    static const uint32_t terms[NUMBER_TERMS][7] = {
        {1, 0}, {1, 1}, {1, UINT32_MAX, UINT32_MAX}, {1, 5}, {1, (uint32_t)-5, UINT32_MAX}, /* 0, 1, -1, 5, -5 */
        {1, UINT32_MAX, INT32_MAX}, {1, 0, (uint32_t)INT32_MIN},                            /* 2^63 - 1, -2^63 */
        {1, (uint32_t)-5, UINT32_MAX}, {2, 2, 1}, {4, 0, 0, 2},                             /* (+ -5 %tag) */
        {1, 5}, {4, 1, 2, 1},                                                               /* (- 5) */
    };
    static const uint32_t lists[] = {7, 8, 10};
    const struct section sections[SECTIONS - 1] = {
        {names, 3, 2}, {NULL, 0, 0},                {NULL, 0, 0}, {NULL, 0, 0}, {NULL, 0, 0},
        {NULL, 0, 0},  {terms[0], NUMBER_TERMS, 7}, {NULL, 0, 0}, {lists, 3, 1},
    };
    return write_book(book, "+-%tag", sections);
}

static void book_tests(void) {
    uint8_t book[CONTENTS];
    uint8_t scratch[LESKOFAR_SCRATCH + 1];
    size_t len = empty_book(book);

    memset(scratch, FILL, sizeof scratch);
    expect("an empty book", leskofar_book_test(book, len, scratch, sizeof scratch) == LESKOFAR_ACCEPTED);
    expect("the scratch is zero", all_are(scratch, sizeof scratch, 0));

    memset(scratch, FILL, sizeof scratch);
    expect("a short scratch", leskofar_book_test(book, len, scratch, LESKOFAR_SCRATCH - 1) == LESKOFAR_SHORT_SCRATCH);
    expect("it is not touched", all_are(scratch, sizeof scratch, FILL));

    expect("no scratch at all", leskofar_book_test(book, len, NULL, 0) == LESKOFAR_SHORT_SCRATCH);
    expect("no book at all", leskofar_book_test(NULL, 0, scratch, sizeof scratch) == LESKOFAR_BAD_CONTENTS);
    expect("neither", leskofar_book_test(NULL, 0, NULL, 0) == LESKOFAR_SHORT_SCRATCH);
    expect("a book cut short", leskofar_book_test(book, len - 1, scratch, sizeof scratch) == LESKOFAR_BAD_CONTENTS);
}

static int refused(leskofar_printed answer, uint32_t refusal) {
    return answer.refusal == refusal && answer.length == 0;
}

/* Whether a call was accepted, has just this text, and left the rest of its buffer alone. */
static int wrote(leskofar_printed answer, const uint8_t *text, const char *expected) {
    size_t len = strlen(expected);
    return answer.refusal == LESKOFAR_ACCEPTED && answer.length == len && memcmp(text, expected, len) == 0 &&
           all_are(text + len, TEXT_SIZE - len, FILL);
}

/* A book, a scratch and a text buffer for the calls of a test. */
struct desk {
    uint8_t book[BOOK_SIZE];
    size_t book_len;
    uint8_t scratch[LESKOFAR_SCRATCH];
    uint8_t text[TEXT_SIZE];
};

static void set_up(struct desk *d) {
    d->book_len = small_book(d->book);
    memset(d->scratch, FILL, sizeof d->scratch);
    memset(d->text, FILL, sizeof d->text);
}

static void set_up_numbers(struct desk *d) {
    set_up(d);
    d->book_len = number_book(d->book);
}

static leskofar_printed print_in(struct desk *d, uint32_t term, uint32_t newlines, uint64_t indent, size_t room) {
    return leskofar_print(d->book, d->book_len, d->scratch, sizeof d->scratch, term, TAG, newlines, indent, d->text, room);
}

static leskofar_printed trace_in(struct desk *d, uint32_t node, size_t room) {
    return leskofar_trace(d->book, d->book_len, d->scratch, sizeof d->scratch, node, d->text, room);
}

static leskofar_printed listing_in(struct desk *d, uint32_t node, uint32_t goal, size_t room) {
    return leskofar_listing(d->book, d->book_len, d->scratch, sizeof d->scratch, node, goal, d->text, room);
}

static void print_tests(void) {
    static const char one_line[] = "(and x 42)";
    static const char lines[] = "(and\n     x\n     42)";
    static const uint32_t flags[] = {1, 7, UINT32_MAX};
    const size_t fitting = strlen(one_line);
    const uint64_t indent = 3;
    struct desk d;

    set_up(&d);
    expect("a term on one line", wrote(print_in(&d, AND_TERM, 0, indent, TEXT_SIZE), d.text, one_line));
    expect("the scratch is zero after it", all_are(d.scratch, sizeof d.scratch, 0));
    for (size_t i = 0; i < sizeof flags / sizeof flags[0]; i++) {
        set_up(&d);
        expect("a term on lines", wrote(print_in(&d, AND_TERM, flags[i], indent, TEXT_SIZE), d.text, lines));
    }
    set_up(&d);
    expect("a full buffer", wrote(print_in(&d, AND_TERM, 0, 0, fitting), d.text, one_line));
    set_up(&d);
    expect("one line at the largest indent", wrote(print_in(&d, AND_TERM, 0, UINT64_MAX, TEXT_SIZE), d.text, one_line));

    set_up(&d);
    expect("lines at the largest indent", refused(print_in(&d, AND_TERM, 1, UINT64_MAX, TEXT_SIZE), LESKOFAR_BUFFER_TOO_SHORT));
    expect("one byte less", refused(print_in(&d, AND_TERM, 0, 0, fitting - 1), LESKOFAR_BUFFER_TOO_SHORT));
    expect("a term that is not there", refused(print_in(&d, TERMS, 0, 0, TEXT_SIZE), LESKOFAR_NOT_IN_BOOK));
    expect("no text buffer", refused(leskofar_print(d.book, d.book_len, d.scratch, sizeof d.scratch, AND_TERM, TAG, 0, 0, NULL, 0),
                                     LESKOFAR_BUFFER_TOO_SHORT));
    expect("nothing at all", refused(leskofar_print(NULL, 0, NULL, 0, 0, 0, 0, 0, NULL, 0), LESKOFAR_SHORT_SCRATCH));
    d.book_len--;
    expect("a book cut short, to print", refused(print_in(&d, AND_TERM, 0, 0, TEXT_SIZE), LESKOFAR_BAD_CONTENTS));
    expect("refused calls leave the text alone", all_are(d.text, sizeof d.text, FILL));
}

/* A negative number is a minus applied to a numeral, and on lines broken like any row; every other number is a numeral. */
static void number_tests(void) {
    static const char *const texts[NUMBERS] = {"0", "1", "(- 1)", "5", "(- 5)", "9223372036854775807", "(- 9223372036854775808)"};
    static const char *const on_lines[NUMBERS] = {"0", "1", "(-\n     1)", "5", "(-\n     5)", "9223372036854775807",
                                                  "(-\n     9223372036854775808)"};
    const uint64_t indent = 3;
    struct desk d;

    for (uint32_t term = 0; term < NUMBERS; term++) {
        const size_t fitting = strlen(texts[term]);
        set_up_numbers(&d);
        expect("a number with a byte less", refused(print_in(&d, term, 0, indent, fitting - 1), LESKOFAR_BUFFER_TOO_SHORT));
        expect("it leaves the text alone", all_are(d.text, sizeof d.text, FILL));
        expect("a number on one line", wrote(print_in(&d, term, 0, indent, fitting), d.text, texts[term]));
        set_up_numbers(&d);
        expect("a number on lines", wrote(print_in(&d, term, 1, indent, TEXT_SIZE), d.text, on_lines[term]));
    }
    set_up_numbers(&d);
    expect("a minus applied to 5", wrote(print_in(&d, MINUS_TERM, 0, indent, TEXT_SIZE), d.text, "(- 5)"));
}

/* %tag is a numeral, also where a signed number would be negative. */
static void tag_tests(void) {
    static const char *const texts[] = {"(+ (- 5) 9223372036854775808)", "(+\n     (-\n       5)\n     9223372036854775808)"};
    static const char listed[] = "----- Proof obligation:\n  |-\n  +(-5, %tag:int)\n";
    const uint64_t tag = (uint64_t)1 << 63;
    const uint64_t indent = 3;
    struct desk d;

    for (uint32_t newlines = 0; newlines < 2; newlines++) {
        set_up_numbers(&d);
        expect("a negative number beside a tag", wrote(leskofar_print(d.book, d.book_len, d.scratch, sizeof d.scratch, SUM_TERM, tag,
                                                                      newlines, indent, d.text, TEXT_SIZE),
                                                       d.text, texts[newlines]));
    }
    set_up_numbers(&d);
    expect("a listing has the minus at the number", wrote(listing_in(&d, 0, SUM_TERM, TEXT_SIZE), d.text, listed));
}

static void trace_tests(void) {
    struct desk d;

    set_up(&d);
    expect("a node that is not there", refused(trace_in(&d, NODES + 1, TEXT_SIZE), LESKOFAR_NOT_IN_BOOK));
    expect("a trace without room", refused(trace_in(&d, NODES, 0), LESKOFAR_BUFFER_TOO_SHORT));
    expect("the root has no trace", wrote(trace_in(&d, 0, 0), d.text, ""));
    expect("a trace", wrote(trace_in(&d, NODES, TEXT_SIZE), d.text, "  x\n"));
    expect("nothing to trace", refused(leskofar_trace(NULL, 0, NULL, 0, 0, NULL, 0), LESKOFAR_SHORT_SCRATCH));
}

static void listing_tests(void) {
    static const char at_node[] = "----- Proof obligation:\n  and(x, %tag:int)\n  |-\n  x\n";
    static const char at_root[] = "----- Proof obligation:\n  |-\n  and(x, %tag:int)\n";
    const size_t fitting = strlen(at_node);
    struct desk d;

    set_up(&d);
    expect("a listing", wrote(listing_in(&d, NODES, X_TERM, TEXT_SIZE), d.text, at_node));
    expect("the scratch is zero after a listing", all_are(d.scratch, sizeof d.scratch, 0));
    set_up(&d);
    expect("a listing that fills its buffer", wrote(listing_in(&d, NODES, X_TERM, fitting), d.text, at_node));
    set_up(&d);
    expect("the root has no premise", wrote(listing_in(&d, 0, AND_TERM, TEXT_SIZE), d.text, at_root));
}

static void refused_listing_tests(void) {
    static const char text[] = "----- Proof obligation:\n  and(x, %tag:int)\n  |-\n  and(x, %tag:int)\n";
    const size_t fitting = strlen(text);
    struct desk d;

    set_up(&d);
    expect("a listing with one byte less", refused(listing_in(&d, NODES, AND_TERM, fitting - 1), LESKOFAR_BUFFER_TOO_SHORT));
    expect("the scratch is zero after a refusal", all_are(d.scratch, sizeof d.scratch, 0));
    expect("no node behind the last", refused(listing_in(&d, NODES + 1, AND_TERM, TEXT_SIZE), LESKOFAR_NOT_IN_BOOK));
    expect("no goal behind the last", refused(listing_in(&d, NODES, TERMS, TEXT_SIZE), LESKOFAR_NOT_IN_BOOK));
    expect("no node of the largest number", refused(listing_in(&d, UINT32_MAX, AND_TERM, TEXT_SIZE), LESKOFAR_NOT_IN_BOOK));
    expect("no goal of the largest number", refused(listing_in(&d, NODES, UINT32_MAX, TEXT_SIZE), LESKOFAR_NOT_IN_BOOK));
    expect("a wrong goal without room", refused(listing_in(&d, NODES, TERMS, 0), LESKOFAR_NOT_IN_BOOK));
    expect("a listing without a buffer",
           refused(leskofar_listing(d.book, d.book_len, d.scratch, sizeof d.scratch, NODES, AND_TERM, NULL, 0), LESKOFAR_BUFFER_TOO_SHORT));
    expect("nothing to list", refused(leskofar_listing(NULL, 0, NULL, 0, 0, 0, NULL, 0), LESKOFAR_SHORT_SCRATCH));
    memset(d.scratch, FILL, sizeof d.scratch);
    expect("a short scratch for a listing", refused(leskofar_listing(d.book, d.book_len, d.scratch, LESKOFAR_SCRATCH - 1, NODES, AND_TERM,
                                                                     d.text, TEXT_SIZE),
                                                    LESKOFAR_SHORT_SCRATCH));
    expect("it is not touched by a listing", all_are(d.scratch, sizeof d.scratch, FILL));
    d.book_len = empty_book(d.book);
    expect("an empty book has no goal", refused(listing_in(&d, 0, 0, TEXT_SIZE), LESKOFAR_NOT_IN_BOOK));
    d.book_len--;
    expect("a book cut short, to list", refused(listing_in(&d, 0, 0, TEXT_SIZE), LESKOFAR_BAD_CONTENTS));
    expect("refused listings leave the text alone", all_are(d.text, sizeof d.text, FILL));
    set_up(&d);
    expect("the same with the byte", wrote(listing_in(&d, NODES, AND_TERM, fitting), d.text, text));
}

static void operator_tests(void) {
    static const char *const names[] = {"=", "=>", "and", "or", "=", "<", "<=", "+", "-", "*", "div", "mod", "not", "-"};
    const uint32_t count = sizeof names / sizeof names[0];
    uint8_t text[TEXT_SIZE];

    for (uint32_t code = 1; code <= count; code++) {
        memset(text, FILL, sizeof text);
        expect("an operator", wrote(leskofar_operator(code, text, sizeof text), text, names[code - 1]));
    }
    memset(text, FILL, sizeof text);
    expect("no operator 0", refused(leskofar_operator(0, text, sizeof text), LESKOFAR_NO_OPERATOR));
    expect("no operator 15", refused(leskofar_operator(count + 1, NULL, 0), LESKOFAR_NO_OPERATOR));
    expect("an operator without a buffer", refused(leskofar_operator(count, NULL, 0), LESKOFAR_BUFFER_TOO_SHORT));
    expect("refused operators leave the text alone", all_are(text, sizeof text, FILL));
}

int main(void) {
    book_tests();
    print_tests();
    number_tests();
    tag_tests();
    trace_tests();
    listing_tests();
    refused_listing_tests();
    operator_tests();
    return close_tests();
}
