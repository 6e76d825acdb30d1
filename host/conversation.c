#include "conversation.h"

#include "faults.h"
#include "scan.h"
#include "transfer.h"

#include <stdio.h>
#include <string.h>

static bool queue(struct conversation *talk, const uint8_t *text, size_t length) {
    if (talk->process.in < 0) {
        return fault_tell(talk, FAULT_INPUT_CLOSED);
    }
    bytes_drop(&talk->to_send, talk->sent);
    talk->sent = 0;
    return (log_sent(talk->log, text, length) && bytes_add(&talk->to_send, text, length)) || fault_tell(talk, FAULT_MEMORY);
}

bool conversation_tell(struct conversation *talk, const uint8_t *text, size_t length) {
    struct patience patience = patience_of(talk);
    bool goes_on = queue(talk, text, length);
    while (goes_on && transfer_is_due(talk)) {
        goes_on = transfer_turn(talk, &patience);
    }
    log_keep(talk->log);
    return goes_on;
}

static bool queue_mark(struct conversation *talk, char mark[MARK_MOST]) {
    char command[MARK_MOST + sizeof "(echo \"\")\n"];
    bool is_made = marks_next(&talk->marks, mark);
    int length = is_made ? snprintf(command, sizeof command, "(echo \"%s\")\n", mark) : -1;
    bool is_whole = length > 0 && (size_t)length < sizeof command;
    return is_whole ? queue(talk, (const uint8_t *)command, (size_t)length) : fault_tell(talk, FAULT_SYSTEM);
}

/* The mark alone, which is z3's echo, or as a string, as SMT-LIB has it. */
static bool is_mark(const uint8_t *line, size_t length, const char *mark) {
    size_t mark_length = strlen(mark);
    if (length == mark_length + 2 && line[0] == '"' && line[length - 1] == '"') {
        line++;
        length -= 2;
    }
    return length == mark_length && memcmp(line, mark, length) == 0;
}

/* Where in what was received the search for a mark stands. */
struct search {
    size_t line;   /* the begin of the line at hand */
    size_t looked; /* up to here there is no further line end */
};

/*
 * Goes on line by line: true once there is one that is the mark. Nobody but the solver's echo can write it, so it counts whatever stands
 * before it, also inside of quotes or parentheses that are never closed.
 */
static bool find_mark(struct conversation *talk, struct search *search, const char *mark) {
    const struct bytes *received = &talk->received;
    while (search->looked < received->length) {
        const uint8_t *line_end = memchr(received->at + search->looked, '\n', received->length - search->looked);
        if (line_end == NULL) {
            search->looked = received->length;
            return false;
        }
        size_t end = (size_t)(line_end - received->at);
        search->looked = end + 1;
        if (is_mark(received->at + search->line, end - search->line, mark)) {
            return true;
        }
        search->line = search->looked;
    }
    return false;
}

/* What stands before the mark. Whatever is not whole is not one item. */
static struct answer read_items(const uint8_t *text, size_t length) {
    struct scan scan = {0};
    size_t items = 0;
    size_t begin = 0;
    size_t end = 0;
    while (scan_item(&scan, text, length)) {
        begin = items == 0 ? scan.start : begin;
        end = scan.end;
        items++;
    }
    if (scan_is_open(&scan)) {
        begin = items == 0 ? scan.start : begin;
        return (struct answer){text + begin, length - begin, false};
    }
    return (struct answer){text == NULL ? NULL : text + begin, end - begin, items == 1};
}

/* Has a mark echoed, and waits for it and for the solver to have taken all that is sent to it. */
static bool await_mark(struct conversation *talk, struct answer *before) {
    char mark[MARK_MOST];
    bytes_drop(&talk->received, talk->answered);
    talk->answered = 0;
    struct search search = {0, 0};
    struct patience patience = patience_of(talk);
    bool is_found = false;
    if (!queue_mark(talk, mark)) {
        return false;
    }
    while (!is_found || transfer_is_due(talk)) {
        if (!transfer_turn(talk, &patience)) {
            return false;
        }
        is_found = is_found || find_mark(talk, &search, mark);
    }
    talk->answered = search.looked;
    *before = read_items(talk->received.at, search.line);
    return true;
}

/* Nothing may be left over before a question, neither in front of the fence's mark nor, as far as it is there yet, behind it. */
static bool fence(struct conversation *talk) {
    struct answer before = {0};
    if (!await_mark(talk, &before)) {
        return false;
    }
    if (before.length > 0) {
        talk->answered = 0;
        return fault_tell(talk, FAULT_LEFT_OVER);
    }
    if (!transfer_look(talk)) {
        return false;
    }
    struct answer behind = read_items(talk->received.at + talk->answered, talk->received.length - talk->answered);
    return behind.length == 0 || fault_tell(talk, FAULT_LEFT_OVER);
}

bool conversation_ask(struct conversation *talk, const uint8_t *text, size_t length, struct answer *answer) {
    if (!fence(talk) || !queue(talk, text, length) || !await_mark(talk, answer)) {
        return false;
    }
    log_keep(talk->log);
    log_received(talk->log, answer->text, answer->length);
    return true;
}

bool conversation_begin(struct conversation *talk, const struct engine *engine) {
    talk->to_send.length = 0;
    talk->sent = 0;
    talk->received.length = 0;
    talk->answered = 0;
    talk->errors.length = 0;
    talk->fault.length = 0;
    talk->is_open = process_start(&talk->process, engine->command, talk->limits.memory);
    if (!talk->is_open) {
        return fault_tell(talk, FAULT_NO_PROCESS);
    }
    log_solver(talk->log, engine->command);
    return true;
}

bool conversation_has_ended(struct conversation *talk) {
    int status = 0;
    return process_has_ended(&talk->process, &status);
}

void conversation_end(struct conversation *talk) {
    if (talk->is_open) {
        log_received(talk->log, talk->errors.at, talk->errors.length);
        (void)process_kill(&talk->process); /* how it ends does not matter any more */
        process_close_all(&talk->process);
        talk->is_open = false;
    }
}

void conversation_free(struct conversation *talk) {
    conversation_end(talk);
    bytes_free(&talk->to_send);
    bytes_free(&talk->received);
    bytes_free(&talk->errors);
    bytes_free(&talk->fault);
}
