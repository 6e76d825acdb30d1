/*
 * The conversation with the solver, as a script that can be run again and then gives the same answers: what was sent and answered stands
 * there as it was; what came back, and what was sent and never answered, as comments. Where a further solver was started the script resets
 * first. Where no file is given, nothing is kept.
 */
#ifndef LOG_H
#define LOG_H

#include "bytes.h"

#include <stdio.h>

struct log {
    FILE *file;           /* NULL where nothing is kept */
    struct bytes pending; /* what was sent, and is not known yet to be answered */
    bool had_solver;
};

/* `path` may be NULL. False where the file cannot be opened; errno says why. */
bool log_open(struct log *log, const char *path);

/* A solver begins; its command is noted, with which the log can be run again. */
void log_solver(struct log *log, const char *const *command);

/* False where the memory does not suffice. */
bool log_sent(struct log *log, const uint8_t *text, size_t length);

/* What was sent is answered, or needs no answer; or it will never be answered. */
void log_keep(struct log *log);
void log_drop(struct log *log);

void log_received(struct log *log, const uint8_t *text, size_t length);
void log_note(struct log *log, const char *note);

/* Whether everything so far could be written. */
bool log_is_written(const struct log *log);

/* False where something could not be written. */
bool log_close(struct log *log);

#endif
