/*
 * A conversation with a solver. Each question stands between two marks that the solver is told to echo: the first, the fence, is awaited
 * before the question is sent, so that whatever is left over from before stands in front of it; the second stands behind the question. The
 * answer is what the solver writes between the two, and nothing else may stand around them: anything more is a fault. After a fault the
 * conversation is over, its process ended.
 */
#ifndef CONVERSATION_H
#define CONVERSATION_H

#include "bytes.h"
#include "engines.h"
#include "log.h"
#include "marks.h"
#include "process.h"

/* The longest answer that is waited for, in bytes. */
enum { CONVERSATION_MOST_ANSWER = 1 << 28 };

/* The limits that a solver has to keep. */
struct limits {
    uint64_t seconds; /* for each answer */
    uint64_t memory;  /* in bytes, 0 for no limit */
};

/* What the solver wrote between two marks, without the blanks around it. It stays there until the next question. */
struct answer {
    const uint8_t *text;
    size_t length;
    bool is_one; /* whether it is one S-expression */
};

struct conversation {
    bool is_open;
    struct process process;
    struct limits limits;
    struct log *log;
    struct marks marks;
    struct bytes to_send;  /* what is on its way to the solver */
    size_t sent;           /* how much of that the solver has taken */
    struct bytes received; /* what the solver has written, from the last answer's begin */
    size_t answered;       /* how much of that lies before the end of the last mark */
    struct bytes errors;   /* what it has written to its standard error, the first of it */
    struct bytes fault;    /* why the conversation is over */
};

/* Starts a solver. Nothing of an earlier conversation is left. Its marks are drawn already. */
bool conversation_begin(struct conversation *talk, const struct engine *engine);

/* Sends a text that needs no answer. */
bool conversation_tell(struct conversation *talk, const uint8_t *text, size_t length);

/* Sends a text and waits for its answer. */
bool conversation_ask(struct conversation *talk, const uint8_t *text, size_t length, struct answer *answer);

/* Whether the solver has ended by itself, so that nothing more can be asked of it. */
bool conversation_has_ended(struct conversation *talk);

/* Ends the solver where one is left. */
void conversation_end(struct conversation *talk);

void conversation_free(struct conversation *talk);

#endif
