#include "writer.h"

#include <string.h>

/* The text buffer's size at first, enough for whatever closes a question, and at last. */
enum { LEAST_TEXT = 1 << 16, MOST_TEXT = 1 << 28 };

/* The pairs of pointer and length that the calls take. */
#define BOOK(w) (w)->book.at, (w)->book.length
#define SCRATCH(w) (w)->scratch, sizeof(w)->scratch
#define IMAGE(w) (w)->image, sizeof(w)->image
#define TEXT(w) (w)->text.at, (w)->text.room
#define REASON(w) (w)->reason.at, (w)->reason.room
#define GROWN(w) (w)->grown.at, (w)->grown.room

bool writer_begin(struct writer *writer) {
    *writer = (struct writer){0};
    return bytes_reserve(&writer->text, LEAST_TEXT);
}

void writer_free(struct writer *writer) {
    bytes_free(&writer->book);
    bytes_free(&writer->text);
    bytes_free(&writer->reason);
    bytes_free(&writer->grown);
}

/*
 * Whether a call was refused for its text's buffer, and that could be doubled: then the call is made again. A refused call has changed
 * nothing. Where the buffer cannot grow the refusal stands.
 */
static bool has_more_room(struct writer *writer, uint32_t refusal) {
    return refusal == LESKOFAR_BUFFER_TOO_SHORT && writer->text.room < MOST_TEXT &&
           bytes_reserve(&writer->text, 2 * writer->text.room);
}

static uint32_t printed(struct writer *writer, leskofar_printed answer) {
    writer->text.length = (size_t)answer.length;
    return answer.refusal;
}

static uint32_t answered(struct writer *writer, leskofar_answer answer) {
    writer->result = answer.result;
    writer->text.length = (size_t)answer.text;
    writer->reason.length = (size_t)answer.reason;
    return answer.refusal;
}

uint32_t writer_test_book(struct writer *writer) {
    return leskofar_book_test(BOOK(writer), SCRATCH(writer));
}

uint32_t writer_print(struct writer *writer, uint32_t term, const struct layout *layout) {
    leskofar_printed answer;
    do {
        answer = leskofar_print(BOOK(writer), SCRATCH(writer), term, layout->tag, layout->lines, layout->indent, TEXT(writer));
    } while (has_more_room(writer, answer.refusal));
    return printed(writer, answer);
}

uint32_t writer_trace(struct writer *writer, uint32_t node) {
    leskofar_printed answer;
    do {
        answer = leskofar_trace(BOOK(writer), SCRATCH(writer), node, TEXT(writer));
    } while (has_more_room(writer, answer.refusal));
    return printed(writer, answer);
}

uint32_t writer_listing(struct writer *writer, uint32_t node, uint32_t goal) {
    leskofar_printed answer;
    do {
        answer = leskofar_listing(BOOK(writer), SCRATCH(writer), node, goal, TEXT(writer));
    } while (has_more_room(writer, answer.refusal));
    return printed(writer, answer);
}

uint32_t writer_nodes_test(struct writer *writer, const struct bytes *nodes) {
    leskofar_nodes_tested answer = leskofar_nodes_test(BOOK(writer), SCRATCH(writer), nodes->at, nodes->length);
    writer->result = answer.result;
    writer->position = answer.position;
    return answer.refusal;
}

uint32_t writer_audit(struct writer *writer, const struct bytes *questions, const struct bytes *script) {
    leskofar_audited answer =
        leskofar_audit(BOOK(writer), SCRATCH(writer), questions->at, questions->length, script->at, script->length);
    writer->differs = answer.differs;
    return answer.refusal;
}

/* There is no room for the text, which comes last of all refusals: so the session stays fresh. */
uint32_t writer_test_question(struct writer *writer, uint32_t node, uint32_t goal) {
    uint32_t refusal = writer_fresh(writer);
    if (refusal == LESKOFAR_ACCEPTED) {
        refusal = leskofar_ask(BOOK(writer), SCRATCH(writer), IMAGE(writer), node, goal, NULL, 0).refusal;
    }
    return refusal == LESKOFAR_BUFFER_TOO_SHORT ? LESKOFAR_ACCEPTED : refusal;
}

/* What was grown becomes the book, and the old book's bytes take the next one. */
static uint32_t appended(struct writer *writer, leskofar_appended answer) {
    if (answer.refusal == LESKOFAR_ACCEPTED) {
        struct bytes old = writer->book;
        writer->book = writer->grown;
        writer->book.length = (size_t)answer.length;
        writer->grown = old;
        writer->number = answer.number;
    }
    return answer.refusal;
}

static leskofar_appended append_term(struct writer *w, const struct growth *g) {
    const uint32_t *n = g->numbers;
    return leskofar_append_term(BOOK(w), SCRATCH(w), n[0], n[1], n[2], n[3], n[4], n[5], n[6], g->first.at, g->first.length, g->second.at,
                                g->second.length, GROWN(w));
}

static leskofar_appended grow(struct writer *w, const struct growth *g) {
    const uint32_t *n = g->numbers;
    const uint8_t *text = (const uint8_t *)g->text;
    size_t length = g->text == NULL ? 0 : strlen(g->text);
    switch (g->kind) {
    case GROWTH_NAME:
        return leskofar_append_name(BOOK(w), SCRATCH(w), text, length, GROWN(w));
    case GROWTH_CONSTANT:
        return leskofar_append_constant(BOOK(w), SCRATCH(w), n[0], n[1], GROWN(w));
    case GROWTH_TERM:
        return append_term(w, g);
    case GROWTH_NODE:
        return leskofar_append_node(BOOK(w), SCRATCH(w), n[0], n[1], n[2], GROWN(w));
    case GROWTH_EXTEND:
        return leskofar_extend(BOOK(w), SCRATCH(w), n[0], n[1], text != NULL, text, length, GROWN(w));
    case GROWTH_EQUATE:
        return leskofar_extend_with_equality(BOOK(w), SCRATCH(w), n[0], n[1], n[2], GROWN(w));
    case GROWTH_RECORD:
        return leskofar_record(BOOK(w), SCRATCH(w), n[0], n[1], n[2], text != NULL, text, length, GROWN(w));
    case GROWTH_POINT:
        break;
    }
    return leskofar_record_trace_point(BOOK(w), SCRATCH(w), n[0], text, length, GROWN(w));
}

uint32_t writer_grow(struct writer *writer, const struct growth *growth) {
    if (!bytes_reserve(&writer->grown, LESKOFAR_BOOK)) {
        return LESKOFAR_BUFFER_TOO_SHORT;
    }
    return appended(writer, grow(writer, growth));
}

uint32_t writer_fresh(struct writer *writer) {
    return leskofar_fresh(IMAGE(writer));
}

uint32_t writer_ask(struct writer *writer, uint32_t node, uint32_t goal) {
    leskofar_answer answer;
    do {
        answer = leskofar_ask(BOOK(writer), SCRATCH(writer), IMAGE(writer), node, goal, TEXT(writer));
    } while (has_more_room(writer, answer.refusal));
    return answered(writer, answer);
}

uint32_t writer_reply(struct writer *writer, bool has_checked, const uint8_t *reply, size_t length) {
    if (!bytes_reserve(&writer->reason, length)) {
        return LESKOFAR_BUFFER_TOO_SHORT;
    }
    return answered(writer, leskofar_reply(BOOK(writer), SCRATCH(writer), IMAGE(writer), has_checked, reply, length, TEXT(writer),
                                           REASON(writer)));
}

uint32_t writer_model(struct writer *writer, const uint8_t *reply, size_t reply_length, const uint8_t *model, size_t model_length) {
    size_t line_end = 1;
    if (!bytes_reserve(&writer->reason, reply_length + line_end + model_length)) {
        return LESKOFAR_BUFFER_TOO_SHORT;
    }
    return answered(writer, leskofar_model(BOOK(writer), SCRATCH(writer), IMAGE(writer), reply, reply_length, model != NULL, model,
                                           model_length, TEXT(writer), REASON(writer)));
}
