#include "log.h"

#include "new_file.h"

#include <string.h>

static const char COMMENT[] = "; ";
static const char RESET[] = "(reset)\n";

bool log_open(struct log *log, const char *path) {
    *log = (struct log){0};
    if (path == NULL) {
        return true;
    }
    log->file = new_file_open(path);
    return log->file != NULL;
}

/* A failed write leaves its mark in the file, and log_is_written looks at that. */
static void put(struct log *log, const void *bytes, size_t length) {
    if (length > 0) {
        (void)fwrite(bytes, 1, length, log->file);
    }
}

/* Cut short where the memory does not suffice: it is only a note. */
static void note_command(struct log *log, const char *const *command) {
    struct bytes words = {0};
    for (size_t i = 0; command[i] != NULL; i++) {
        (void)(i == 0 || bytes_add_text(&words, " "));
        (void)bytes_add_text(&words, command[i]);
    }
    log_received(log, words.at, words.length);
    bytes_free(&words);
}

void log_solver(struct log *log, const char *const *command) {
    if (log->file == NULL) {
        return;
    }
    log_note(log, "a new solver");
    note_command(log, command);
    if (log->had_solver) {
        put(log, RESET, sizeof RESET - 1);
    }
    log->had_solver = true;
}

bool log_sent(struct log *log, const uint8_t *text, size_t length) {
    return log->file == NULL || bytes_add(&log->pending, text, length);
}

void log_keep(struct log *log) {
    if (log->file != NULL) {
        put(log, log->pending.at, log->pending.length);
        log->pending.length = 0;
        (void)fflush(log->file);
    }
}

void log_drop(struct log *log) {
    if (log->pending.length > 0) {
        log_note(log, "sent, and not answered:");
        log_received(log, log->pending.at, log->pending.length);
        log->pending.length = 0;
    }
}

/* How many bytes stand before the first that ends a comment of SMT-LIB; what stands behind it must not become a command. */
static size_t line_length(const uint8_t *text, size_t length) {
    size_t line = 0;
    while (line < length && text[line] != '\n' && text[line] != '\r') {
        line++;
    }
    return line;
}

void log_received(struct log *log, const uint8_t *text, size_t length) {
    if (log->file == NULL) {
        return;
    }
    while (length > 0) {
        size_t line = line_length(text, length);
        put(log, COMMENT, sizeof COMMENT - 1);
        put(log, text, line);
        put(log, "\n", 1);
        size_t passed = line < length ? line + 1 : line;
        text += passed;
        length -= passed;
    }
    (void)fflush(log->file);
}

void log_note(struct log *log, const char *note) {
    log_received(log, (const uint8_t *)note, strlen(note));
}

bool log_is_written(const struct log *log) {
    return log->file == NULL || ferror(log->file) == 0;
}

bool log_close(struct log *log) {
    bool is_written = log_is_written(log);
    if (log->file != NULL) {
        is_written = fclose(log->file) == 0 && is_written;
    }
    bytes_free(&log->pending);
    log->file = NULL;
    return is_written;
}
