/* The calls that write a text of a book, each made with just the room that its text needs, and with a byte less. */
#ifndef TEXT_CALLS_H
#define TEXT_CALLS_H

#include "expect.h"
#include "record_book.h"
#include <leskofar.h>

enum { FILL = 0xA5, ROOM_TEXT = 131072, INDENT = 3 };

/* Kinds of terms, and types. */
enum { BOOLEAN, INTEGER, LITERAL, ID, BUILT_IN, FUNCTION, ITE, LET, QUANTIFIER };
enum { BOOL, INT, USER_TYPE };

static struct records records;
static uint8_t book[ROOM_BOOK];
static size_t book_len;
static uint8_t scratch[LESKOFAR_SCRATCH];
static uint8_t image[LESKOFAR_IMAGE];
static uint8_t text[ROOM_TEXT];

#define LENT book, book_len, scratch, sizeof scratch
#define SESSION image, sizeof image

/* Each takes two numbers, of which it may need only the first, and the length of its text buffer. */
typedef leskofar_printed text_call(uint32_t, uint32_t, size_t);

static inline leskofar_printed print_call(uint32_t term, uint32_t newlines, size_t room) {
    return leskofar_print(LENT, term, 0, newlines, INDENT, text, room);
}

static inline leskofar_printed trace_call(uint32_t node, uint32_t unused, size_t room) {
    (void)unused;
    return leskofar_trace(LENT, node, text, room);
}

static inline leskofar_printed listing_call(uint32_t node, uint32_t goal, size_t room) {
    return leskofar_listing(LENT, node, goal, text, room);
}

/* By a fresh session. */
static inline leskofar_printed move_call(uint32_t node, uint32_t unused, size_t room) {
    (void)unused;
    (void)leskofar_fresh(SESSION);
    leskofar_answer a = leskofar_move(LENT, SESSION, node, text, room);
    return (leskofar_printed){a.refusal, a.text};
}

static inline leskofar_printed ask_call(uint32_t node, uint32_t goal, size_t room) {
    (void)leskofar_fresh(SESSION);
    leskofar_answer a = leskofar_ask(LENT, SESSION, node, goal, text, room);
    return (leskofar_printed){a.refusal, a.text};
}

static inline void lay_book(void) {
    book_len = write_records(book, &records);
}

/* The number of the last record of a section. */
static inline uint32_t last_of(int section) {
    return (uint32_t)records.counts[section] - 1;
}

/* Whether the call writes just this text, leaves what is behind it alone, and without its last byte of room writes nothing. */
static inline int writes(text_call *call, uint32_t first, uint32_t second, const char *wanted) {
    const size_t length = strlen(wanted);
    memset(text, FILL, sizeof text);
    leskofar_printed whole = call(first, second, length);
    int is_good = whole.refusal == LESKOFAR_ACCEPTED && whole.length == length && memcmp(text, wanted, length) == 0 &&
                  all_are(text + length, sizeof text - length, FILL) && all_are(scratch, sizeof scratch, 0);
    memset(text, FILL, sizeof text);
    leskofar_printed cut = call(first, second, length - 1);
    return is_good && cut.refusal == LESKOFAR_BUFFER_TOO_SHORT && cut.length == 0 && all_are(text, sizeof text, FILL);
}

/* Whether it is refused with this number, and writes nothing. */
static inline int refuses(text_call *call, uint32_t first, uint32_t second, uint32_t refusal) {
    memset(text, FILL, sizeof text);
    leskofar_printed answer = call(first, second, sizeof text);
    return answer.refusal == refusal && answer.length == 0 && all_are(text, sizeof text, FILL);
}

#endif
