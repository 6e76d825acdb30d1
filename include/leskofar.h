/*
 * Leskofar: the proved script writer between a tree of premises and an SMT solver.
 *
 * Every call takes every input: it checks the book, the session and the numbers for itself, always returns, and refuses what it cannot
 * take with a number. A refused call changes neither the session nor the buffers for a text, a reason, a new book or another image.
 *
 * Buffers are a pointer and a length. The buffers of one call must not overlap: that is the one thing that a call cannot check, and no
 * proof holds where they do. A pointer may be NULL where its length is 0.
 *
 * No call keeps a pointer, allocates, or touches anything but its buffers.
 */
#ifndef LESKOFAR_H
#define LESKOFAR_H

#include <stddef.h>
#include <stdint.h>

#ifdef __cplusplus
extern "C" {
#endif

/* What a call answers: 0 where it is accepted, else why it is refused. */
enum leskofar_refusal {
    LESKOFAR_ACCEPTED = 0,
    LESKOFAR_SHORT_SCRATCH = 1,        /* the scratch is shorter than LESKOFAR_SCRATCH */
    LESKOFAR_BAD_CONTENTS = 2,         /* the book's table of contents is not as laid out */
    LESKOFAR_COUNT_OVER_LIMIT = 3,     /* a section has more records than it may, a list more nodes, or a script more bytes */
    LESKOFAR_FIELD_OUT_OF_RANGE = 4,   /* a field or list entry is out of range, an unused field is not 0, or a letter is bad */
    LESKOFAR_NO_FOREST = 5,            /* a child is not smaller than its parent, or a term is referred to twice */
    LESKOFAR_TOO_DEEP = 6,             /* a node is deeper than 400 */
    LESKOFAR_NOT_IN_BOOK = 7,          /* a node or term of the call is not in the book */
    LESKOFAR_REPLY_IS_UNSAT = 8,       /* a model is given for the reply unsat */
    LESKOFAR_MISSING_AXIOM = 9,        /* a function to be declared has an axiom without a term */
    LESKOFAR_BUFFER_TOO_SHORT = 10,    /* the text, the reason or the new book is longer than its buffer */
    LESKOFAR_NO_OPERATOR = 11,         /* the operator's code is not from 1 to 14 */
    LESKOFAR_NO_SESSION = 20,          /* the session is not one that this book's calls leave */
    LESKOFAR_QUESTION_OPEN = 21,       /* move or ask while a reply or model is owed */
    LESKOFAR_NO_REPLY_OWED = 22,       /* a reply is given and none is owed */
    LESKOFAR_NO_MODEL_OWED = 23,       /* a model is given and none is owed */
    LESKOFAR_TOO_DEEP_FOR_NARROW = 24, /* the session to be turned back is deeper than 64 */
    LESKOFAR_TAG_IN_BOOK = 25,         /* the book of an audit holds a %tag literal */
    LESKOFAR_FOREIGN_LINE = 26,        /* a line of the script is no command of ours, or pops the first level */
    LESKOFAR_CHECKS_DIFFER = 27,       /* the script has more or fewer check-sats than there are questions */
    LESKOFAR_BAD_NAME = 28,            /* a name that cannot go to a solver: empty, or with a bar or backslash */
};

/* The least scratch that a call takes: a bit for each of the 1,024 terms that a book may have. It need not be cleared first. */
#define LESKOFAR_SCRATCH 128

/*
 * Bytes of stack that are enough for any call without a session but leskofar_nodes_test and leskofar_audit, beside what the caller and
 * its thread take. To print the deepest terms that a book can hold takes nearly all of it, to list them less (docs/PERFORMANCE.md); a
 * call that lets a book grow holds a buffer of LESKOFAR_BOOK bytes there, in which the new book is tested; every other call needs a few
 * thousand bytes.
 */
#define LESKOFAR_STACK (200 * 1024)

/*
 * The same for a call on a session, and for leskofar_nodes_test and leskofar_audit: they walk the terms and axioms that are to be
 * declared. An audit holds there, beside the walk, this library's text of one question and where the script's live lines start.
 */
#define LESKOFAR_SESSION_STACK (2048 * 1024)

/*
 * Tests a book: refusals 1 to 6, then 28, the first that holds, each decided for the whole book before the next; 0 for a good book.
 * Afterwards the scratch is all zero, also where it is longer than it need be; under refusal 1 it is not touched.
 *
 * 28 is given for a type, constant or function, used or not, whose name is empty, or has a bar or backslash and does not stand between
 * two bars with neither inside; and for a literal other than %tag with a bar or backslash anywhere in its text or in its type's name.
 */
uint32_t leskofar_book_test(const uint8_t *book, size_t book_len, uint8_t *scratch, size_t scratch_len);

/* What a call answers that writes a text: 0 and the text's length, or why it is refused and 0. */
typedef struct {
    uint32_t refusal;
    uint64_t length;
} leskofar_printed;

/*
 * Prints a term of the book into the text buffer: refusals 1 to 6, 28, 7 and 10, the first that holds in this order. `tag` is the
 * number that the literal %tag stands for. A negative number is a minus applied to a numeral, as SMT-LIB 2.6 has it: -5 is (- 5), a list
 * like any other. Here, and in every text for a solver, the name of a type, constant or function is a symbol of SMT-LIB 2.6: as it
 * stands in the book where it is a simple symbol or stands between bars already, else between bars, such as |red 40| and |let|. The
 * names of built-in operators, and what stands between the bars of a literal, are as in the book.
 * `newlines` is a flag, 0 or any other number: 0 for one line; else each part of a list behind its first is on a line of its own, two
 * spaces deeper than the list, which itself is taken to stand `indent` spaces deep. The text has no line end and no zero byte at its
 * end. Bytes of the buffer behind the text keep what they hold; a refused call changes none at all.
 */
leskofar_printed leskofar_print(const uint8_t *book, size_t book_len, uint8_t *scratch, size_t scratch_len, uint32_t term, uint64_t tag,
                                uint32_t newlines, uint64_t indent, uint8_t *text, size_t text_len);

/*
 * Prints the traces of a node and of the nodes above it, from the root down, a line for each that has one: two spaces, the trace as it
 * stands in the book, a line end. Node 0, the root, has none. Refusals and buffers as above.
 */
leskofar_printed leskofar_trace(const uint8_t *book, size_t book_len, uint8_t *scratch, size_t scratch_len, uint32_t node, uint8_t *text,
                                size_t text_len);

/*
 * Prints what is to be proved where a goal, any term, is asked at a node: the premises from the root down and the goal, each on a line,
 * in B3's notation, where a negative number is -5, and with the names as they stand in the book, without bars of ours. Refusals and
 * buffers as above.
 */
leskofar_printed leskofar_listing(const uint8_t *book, size_t book_len, uint8_t *scratch, size_t scratch_len, uint32_t node,
                                  uint32_t goal, uint8_t *text, size_t text_len);

/*
 * Writes the name of an operator by its code, 1 to 14: = => and or = < <= + - * div mod not -. Refusals 11 and 10, in this order. It
 * takes neither a book nor a scratch.
 */
leskofar_printed leskofar_operator(uint32_t code, uint8_t *text, size_t text_len);

/* Bytes of a session's image, and of one of the narrow kind, with one byte for each level (docs/SESSION.md). */
#define LESKOFAR_IMAGE 3216
#define LESKOFAR_NARROW_IMAGE 1616

/* What a call on a session leads to. */
enum leskofar_result {
    LESKOFAR_WRITTEN = 0, /* a text for the solver; after ask a reply is owed, after reply a model */
    LESKOFAR_PROVED = 1,  /* the question is closed, and its goal follows at its node */
    LESKOFAR_UNPROVED = 2 /* the question is closed, and the reason says why nothing is proved */
};

/* What a call on a session answers. Where it is refused, all is 0 but the refusal. */
typedef struct {
    uint32_t refusal;
    uint32_t result; /* of enum leskofar_result */
    uint64_t text;   /* the length of the text, which is to be sent to the solver as it is */
    uint64_t reason; /* the length of the reason where nothing is proved, else 0 */
} leskofar_answer;

/*
 * Writes the image of a fresh session, to begin with and whenever a new solver is started: 0, or 20 where the length is not
 * LESKOFAR_IMAGE; then nothing is touched.
 */
uint32_t leskofar_fresh(uint8_t *image, size_t image_len);

/*
 * Moves the session to a node, 0 for the root: refusals 1 to 6, 28, 7, 20, 21, 9 and 10, the first that holds in this order. The
 * text has (pop 1) for each node up to the deepest shared one, then for each node below it (push 1), the declarations and the assertion,
 * with names as leskofar_print has them; it is empty where the session is there already. An accepted call changes the image. Bytes behind
 * the text keep what they hold; a refused call changes neither the image nor the text.
 */
leskofar_answer leskofar_move(const uint8_t *book, size_t book_len, uint8_t *scratch, size_t scratch_len, uint8_t *image,
                              size_t image_len, uint32_t node, uint8_t *text, size_t text_len);

/*
 * Moves the session to a node and asks there whether a term, the goal, follows. Refusals and buffers as above. Behind the move's text
 * there are (push 1) and what the goal declares, (push 1) and the goal's negation, and (check-sat); a reply is owed: until the question
 * is closed, move and ask are refused.
 */
leskofar_answer leskofar_ask(const uint8_t *book, size_t book_len, uint8_t *scratch, size_t scratch_len, uint8_t *image,
                             size_t image_len, uint32_t node, uint32_t goal, uint8_t *text, size_t text_len);

/*
 * Takes what came of the check: refusals 1 to 6, 28, 20, 22 and 10, in this order. `ok` is a flag, 0 where the check failed; `reply` then
 * is its error text, and the goal is unproved with that text as the reason. Else `reply` is the solver's reply without its line end: the
 * five bytes unsat prove the goal; after any other the text is (get-model), and a model is owed. Where the question is closed, the text
 * is two lines (pop 1), 16 bytes. The reason buffer is touched only where there is a reason. A refused call changes neither the image
 * nor the text nor the reason.
 */
leskofar_answer leskofar_reply(const uint8_t *book, size_t book_len, uint8_t *scratch, size_t scratch_len, uint8_t *image,
                               size_t image_len, uint32_t ok, const uint8_t *reply, size_t reply_len, uint8_t *text, size_t text_len,
                               uint8_t *reason, size_t reason_len);

/*
 * Takes the same reply once more, and the model where the flag `has_model` is not 0: refusals 1 to 6, 28, 20, 23, 8 and 10, in this
 * order. The goal is unproved, and the text is the two pops; the reason is the reply and, where a model came, a line end and the model.
 * Buffers as above.
 */
leskofar_answer leskofar_model(const uint8_t *book, size_t book_len, uint8_t *scratch, size_t scratch_len, uint8_t *image,
                               size_t image_len, const uint8_t *reply, size_t reply_len, uint32_t has_model, const uint8_t *model,
                               size_t model_len, uint8_t *text, size_t text_len, uint8_t *reason, size_t reason_len);

/*
 * Turns a session of the narrow kind into one that the calls take, with the same node, levels and question: refusals 1 to 6, 28 and 20.
 * 20 also for a narrow session deeper than 64, and where a length is not LESKOFAR_NARROW_IMAGE or LESKOFAR_IMAGE. The narrow image is
 * only read; a refused call does not touch the other.
 */
uint32_t leskofar_widen(const uint8_t *book, size_t book_len, uint8_t *scratch, size_t scratch_len, const uint8_t *narrow,
                        size_t narrow_len, uint8_t *image, size_t image_len);

/* Turns it back: refusals 1 to 6, 28, 20, then 24 for a session deeper than 64. Lengths and buffers as above. */
uint32_t leskofar_narrow(const uint8_t *book, size_t book_len, uint8_t *scratch, size_t scratch_len, const uint8_t *image,
                         size_t image_len, uint8_t *narrow, size_t narrow_len);

/* The most numbers that a list of nodes may have. */
#define LESKOFAR_NODES_MOST 512

/* What the test of a list of nodes leads to. */
enum leskofar_nodes_result {
    LESKOFAR_NODES_PASS = 0, /* a fresh session could move to each of them */
    LESKOFAR_NODE_FAILS = 1  /* the one at `position` is the first that would be refused 9 */
};

/* What it answers. Where it is refused, all is 0 but the refusal. */
typedef struct {
    uint32_t refusal;
    uint32_t result;   /* of enum leskofar_nodes_result */
    uint64_t position; /* counted from 0; 0 where none fails */
} leskofar_nodes_tested;

/*
 * Tells beforehand whether a session could move to each node of a list, 0 for the root: refusals 1 to 6, 28, 3 for more than
 * LESKOFAR_NODES_MOST numbers, and 7 for a node that is not in the book, wherever it stands in the list; the first that holds in this
 * order. A number has four bytes, little-endian; bytes behind the last whole one count as a number more, which is no node. A node may
 * stand in the list twice; an empty list passes. Of goals nothing is said: a question at such a node may still be refused 9 for its
 * goal.
 */
leskofar_nodes_tested leskofar_nodes_test(const uint8_t *book, size_t book_len, uint8_t *scratch, size_t scratch_len,
                                          const uint8_t *nodes, size_t nodes_len);

/* The longest script that is taken. */
#define LESKOFAR_SCRIPT_MOST 65536

/*
 * What an audit answers: 0 and 0 where the script is accepted; 0 and the first check-sat that differs, counted from 1; or why it is
 * refused, and 0.
 */
typedef struct {
    uint32_t refusal;
    uint32_t differs;
} leskofar_audited;

/*
 * Says whether a script of another writer leaves live, at its k-th check-sat, for every k, just the levels that this library's writer
 * would: as many, and at each the same lines, each as often, in any order (docs/AUDIT.md). `questions` holds node and goal in turn, four
 * bytes each, little-endian; a last question that is cut short is not in the book. Refusals 1 to 6 (3 also for a script longer than
 * LESKOFAR_SCRIPT_MOST), 28, 7, 9, 25, 26 and 27, the first that holds in this order. It has no session and no buffer to write to;
 * afterwards the scratch is all zero, except under 1.
 */
leskofar_audited leskofar_audit(const uint8_t *book, size_t book_len, uint8_t *scratch, size_t scratch_len, const uint8_t *questions,
                                size_t questions_len, const uint8_t *script, size_t script_len);

/*
 * The writer. Each of the eight calls below reads a book, appends records, and writes the grown book from byte 0 of the buffer
 * `new_book`. The book received is only read; the two must not overlap, so a host that lets a book grow has two buffers and takes them
 * in turn. Bytes behind the new book keep what they hold; a refused call changes none at all.
 *
 * A new record stands behind the last one of its section, so every old record keeps its number, and what it says. Letters and list
 * entries are always new; a new range without entries, and a new name without letters, starts at 0.
 *
 * A session of the old book goes on with the new one, also while a reply or model is owed: hand each call the newest book. A call whose
 * node and goal are in the old book has the same outcome on both.
 *
 * Refusals, the first that holds in this order: 1 to 6 and 28 for the book received; 7 where leskofar_append_node or one of the last
 * four is given a parent or a term that is not in it, and for nothing else; 3, 4, 5, 6 and 28 for the book as it would become, each for
 * the whole book before the next; 10 where that is longer than its buffer. So a name, type, constant, function, pattern, trace number or
 * child that is not there is 4, a term that is its own child 5, a term that is referred to already 5, and a constant with an empty name
 * 28, but not the name alone. Afterwards the scratch is all zero, except under 1.
 */

/* Bytes of a buffer that is enough for every book. */
#define LESKOFAR_BOOK 63312

/* What such a call answers. Where it is refused, all is 0 but the refusal. */
typedef struct {
    uint32_t refusal;
    uint32_t number; /* of the new name, constant or term; for the last five calls of the new node */
    uint64_t length; /* of the new book */
} leskofar_appended;

/* Appends a name with this text, also where another has the same. */
leskofar_appended leskofar_append_name(const uint8_t *book, size_t book_len, uint8_t *scratch, size_t scratch_len, const uint8_t *text,
                                       size_t text_len, uint8_t *new_book, size_t new_book_len);

/* Appends a constant: its name's number and its type, 0 for Bool, 1 for Int, and from 2 up the user type less 2. */
leskofar_appended leskofar_append_constant(const uint8_t *book, size_t book_len, uint8_t *scratch, size_t scratch_len, uint32_t name,
                                           uint32_t type, uint8_t *new_book, size_t new_book_len);

/*
 * Appends a term. Kind and fields are the record's, unused fields 0, but that start and count of a range are given as 0: they are filled
 * in by what the lists hold. A list has numbers of four bytes, little-endian. Kinds 4 and 5, the applications, take their arguments as
 * `first`; kind 8, the quantifiers, its constants as `first` and its patterns as `second`; every other list is empty. What is given
 * otherwise, or cut inside a number, is refused 4.
 */
leskofar_appended leskofar_append_term(const uint8_t *book, size_t book_len, uint8_t *scratch, size_t scratch_len, uint32_t kind,
                                       uint32_t field_1, uint32_t field_2, uint32_t field_3, uint32_t field_4, uint32_t field_5,
                                       uint32_t field_6, const uint8_t *first, size_t first_len, const uint8_t *second,
                                       size_t second_len, uint8_t *new_book, size_t new_book_len);

/* Appends a node: its parent, 0 for the root, its premise, and as its trace the number of a name + 1, or 0 for none. */
leskofar_appended leskofar_append_node(const uint8_t *book, size_t book_len, uint8_t *scratch, size_t scratch_len, uint32_t parent,
                                       uint32_t term, uint32_t trace, uint8_t *new_book, size_t new_book_len);

/*
 * The last four append a node with what it needs. Of a text that they need they take the name with the lowest number, and append one
 * where there is none: the name of the new constant, then `=`, then the trace. Constants, terms and list entries are always new. The
 * flag `has_trace` is 0 where no trace is given, and `trace` is then not looked at; an empty text is a trace.
 */

/* Appends a node with a premise below a parent. */
leskofar_appended leskofar_extend(const uint8_t *book, size_t book_len, uint8_t *scratch, size_t scratch_len, uint32_t parent,
                                  uint32_t term, uint32_t has_trace, const uint8_t *trace, size_t trace_len, uint8_t *new_book,
                                  size_t new_book_len);

/* The same with the premise that a constant equals a term: (= constant term). It has no trace. */
leskofar_appended leskofar_extend_with_equality(const uint8_t *book, size_t book_len, uint8_t *scratch, size_t scratch_len,
                                                uint32_t parent, uint32_t constant, uint32_t term, uint8_t *new_book,
                                                size_t new_book_len);

/*
 * The same with a new constant of a type, so that a model tells what the term is there. Its name is probe% and the parent's depth, such
 * as probe%0 below the root; that is the trace too where none is given.
 */
leskofar_appended leskofar_record(const uint8_t *book, size_t book_len, uint8_t *scratch, size_t scratch_len, uint32_t parent,
                                  uint32_t term, uint32_t type, uint32_t has_trace, const uint8_t *trace, size_t trace_len,
                                  uint8_t *new_book, size_t new_book_len);

/* The same of a new term `true`, whose type is Bool: a point of the trace. */
leskofar_appended leskofar_record_trace_point(const uint8_t *book, size_t book_len, uint8_t *scratch, size_t scratch_len, uint32_t parent,
                                              const uint8_t *trace, size_t trace_len, uint8_t *new_book, size_t new_book_len);

#ifdef __cplusplus
}
#endif

#endif
