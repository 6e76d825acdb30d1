/* Audits as C sees them: buffers of which every byte is looked at, and scripts that are put together line by line. */
#ifndef AUDIT_CALLS_H
#define AUDIT_CALLS_H

#include "expect.h"
#include "record_book.h"
#include <leskofar.h>

enum { FILL = 0xA5, GUARD = 16, QUESTION = 2 * NUMBER };

/* A scratch longer than need be, more questions than a script can have check-sats, and a script longer than may be. */
enum { ROOM_SCRATCH = 16 * LESKOFAR_SCRATCH, ROOM_QUESTIONS = 8192 * QUESTION, ROOM_SCRIPT = LESKOFAR_SCRIPT_MOST + GUARD };

/* A buffer between bytes that nobody may touch, with room for more than a call is given. */
#define FRAMED(room) \
    struct { \
        uint8_t before[GUARD]; \
        uint8_t at[(room) + GUARD]; \
    }

/* What an audit is given. */
struct desk {
    FRAMED(ROOM_BOOK) book;
    size_t book_len;
    FRAMED(ROOM_SCRATCH) scratch;
    size_t scratch_len;
    FRAMED(ROOM_QUESTIONS) questions;
    size_t questions_len;
    FRAMED(ROOM_SCRIPT) script;
    size_t script_len;
};

static struct desk desk;

/* Whether each call so far has left its scratch as it must, and everything else as it was. */
static int are_left_well = 1;

static inline int is_left_well(const struct desk *before, uint32_t refusal) {
    size_t cleared = refusal == LESKOFAR_SHORT_SCRATCH ? 0 : desk.scratch_len;
    return all_are(desk.scratch.before, GUARD, FILL) && all_are(desk.scratch.at, cleared, 0) &&
           all_are(desk.scratch.at + cleared, sizeof desk.scratch.at - cleared, FILL) &&
           memcmp(&desk.book, &before->book, sizeof desk.book) == 0 &&
           memcmp(&desk.questions, &before->questions, sizeof desk.questions) == 0 &&
           memcmp(&desk.script, &before->script, sizeof desk.script) == 0;
}

static inline leskofar_audited audit(void) {
    static struct desk before;
    memset(&desk.scratch, FILL, sizeof desk.scratch);
    before = desk;
    leskofar_audited answer = leskofar_audit(desk.book.at, desk.book_len, desk.scratch.at, desk.scratch_len, desk.questions.at,
                                             desk.questions_len, desk.script.at, desk.script_len);
    are_left_well = are_left_well && is_left_well(&before, answer.refusal);
    return answer;
}

static inline int is_answer(uint32_t refusal, uint32_t differs) {
    leskofar_audited answer = audit();
    return answer.refusal == refusal && answer.differs == differs;
}

static inline int accepts(void) {
    return is_answer(LESKOFAR_ACCEPTED, 0);
}

static inline int rejects_at(uint32_t check) {
    return is_answer(LESKOFAR_ACCEPTED, check);
}

static inline int refuses(uint32_t refusal) {
    return is_answer(refusal, 0);
}

/* A desk with this book, a scratch just long enough, no questions and no script. */
static inline void lay_book(const struct records *r) {
    memset(&desk, FILL, sizeof desk);
    desk.book_len = write_records(desk.book.at, r);
    desk.scratch_len = LESKOFAR_SCRATCH;
    desk.questions_len = 0;
    desk.script_len = 0;
}

static inline void add_question(uint32_t node, uint32_t goal) {
    put_number(desk.questions.at + desk.questions_len, node);
    put_number(desk.questions.at + desk.questions_len + NUMBER, goal);
    desk.questions_len += QUESTION;
}

/* One question alone. */
static inline void ask_one(uint32_t node, uint32_t goal) {
    desk.questions_len = 0;
    add_question(node, goal);
}

static inline void add_bytes(const void *bytes, size_t length) {
    memcpy(desk.script.at + desk.script_len, bytes, length);
    desk.script_len += length;
}

/* Lines with their ends, as they stand here. */
static inline void add_text(const char *text) {
    add_bytes(text, strlen(text));
}

/* The script that is just this. */
static inline void put_text(const char *text) {
    desk.script_len = 0;
    add_text(text);
}

static inline void add_times(size_t times, const char *text) {
    for (size_t i = 0; i < times; i++) {
        add_text(text);
    }
}

/* What a fresh session sends for a question; its length, or 0 where it is refused. */
static inline size_t own_text(uint32_t node, uint32_t goal, uint8_t *text, size_t room) {
    uint8_t image[LESKOFAR_IMAGE];
    uint8_t scratch[LESKOFAR_SCRATCH];
    (void)leskofar_fresh(image, sizeof image);
    return (size_t)leskofar_ask(desk.book.at, desk.book_len, scratch, sizeof scratch, image, sizeof image, node, goal, text, room).text;
}

/* The script that is just that text, for this one question. */
static inline void put_own(uint32_t node, uint32_t goal) {
    ask_one(node, goal);
    desk.script_len = own_text(node, goal, desk.script.at, sizeof desk.script.at);
}

#endif
