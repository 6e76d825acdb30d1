/*
 * The script writer: the library's calls on one book, which may grow, and one session, with buffers that grow as far as a text needs
 * them. Each function answers 0 or the refusal's number.
 */
#ifndef WRITER_H
#define WRITER_H

#include "bytes.h"
#include "growth.h"

#include <leskofar.h>

struct writer {
    struct bytes book;
    uint8_t scratch[LESKOFAR_SCRATCH];
    uint8_t image[LESKOFAR_IMAGE];
    uint32_t result;     /* of the last accepted reply or model, as enum leskofar_result has it; of nodes as enum leskofar_nodes_result */
    uint64_t position;   /* in the last list of nodes that was tested */
    uint32_t differs;    /* the first check-sat that differs in the last script that was audited, counted from 1; 0 for none */
    uint32_t number;     /* of the record or node that the last growth appended */
    struct bytes text;   /* of the last accepted call */
    struct bytes reason; /* of the last one that had any */
    struct bytes grown;  /* where the next growth is written */
};

/* How a term is printed. */
struct layout {
    bool lines;
    uint64_t indent;
    uint64_t tag;
};

/* A writer with no book yet; false where the memory does not suffice. */
bool writer_begin(struct writer *writer);
void writer_free(struct writer *writer);

uint32_t writer_test_book(struct writer *writer);
uint32_t writer_print(struct writer *writer, uint32_t term, const struct layout *layout);
uint32_t writer_trace(struct writer *writer, uint32_t node);
uint32_t writer_listing(struct writer *writer, uint32_t node, uint32_t goal);

/* `nodes` is a list of numbers; what comes of it is the writer's result and position. */
uint32_t writer_nodes_test(struct writer *writer, const struct bytes *nodes);

/* `questions` is a list of nodes and goals in turn; what comes of it is the writer's `differs`. */
uint32_t writer_audit(struct writer *writer, const struct bytes *questions, const struct bytes *script);

/* Why a fresh session would be refused a question, however long its text is. The writer's own session is fresh then. */
uint32_t writer_test_question(struct writer *writer, uint32_t node, uint32_t goal);

/* Lets the book grow; the session goes on with it. What is refused leaves the book as it is. */
uint32_t writer_grow(struct writer *writer, const struct growth *growth);

uint32_t writer_fresh(struct writer *writer);
uint32_t writer_ask(struct writer *writer, uint32_t node, uint32_t goal);

/* `has_checked` is false for a check that failed; the reply then is its error text. */
uint32_t writer_reply(struct writer *writer, bool has_checked, const uint8_t *reply, size_t length);

/* `model` is NULL where none came. */
uint32_t writer_model(struct writer *writer, const uint8_t *reply, size_t reply_length, const uint8_t *model, size_t model_length);

#endif
