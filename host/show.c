#include "show.h"

#include "complain.h"

#include <inttypes.h>
#include <stdio.h>
#include <stdlib.h>
#include <string.h>
#include <unistd.h>

/* Back to the line's begin, and all of it away. */
static const char CLEARED_LINE[] = "\r\033[K";
static const char PLAIN[] = "\033[0m";
static const char *const COLOURS[] = {[GREEN] = "\033[32m", [YELLOW] = "\033[33m", [RED] = "\033[31m"};

enum { FIRST_LETTER = ' ', LAST_LETTER = '~' };

static const char TITLE_INDENT[] = "  ";
static const char LINE_INDENT[] = "    ";

/* Results of printing are not looked at one by one: a failed one leaves its mark, and show_end looks at that. */

struct show show_begin(bool is_quiet) {
    bool is_terminal = isatty(STDOUT_FILENO) == 1;
    /* The custom by which users turn colours off. */
    return (struct show){is_quiet, is_terminal, is_terminal && getenv("NO_COLOR") == NULL};
}

void show_count(const struct show *show, size_t done, size_t of) {
    if (show->is_terminal && !show->is_quiet) {
        (void)printf("%s%zu of %zu done", CLEARED_LINE, done, of);
    }
}

void show_result(const struct show *show, uint32_t node, uint32_t term, enum colour colour, const char *result) {
    if (show->is_quiet) {
        return;
    }
    const char *before = show->has_colours ? COLOURS[colour] : "";
    const char *behind = show->has_colours ? PLAIN : "";
    const char *cleared = show->is_terminal ? CLEARED_LINE : "";
    (void)printf("%snode %" PRIu32 ", term %" PRIu32 ": %s%s%s\n", cleared, node, term, before, result, behind);
}

uint8_t show_harmless(uint8_t byte) {
    bool is_blank = byte == '\t' || byte == '\n';
    return is_blank || (byte >= FIRST_LETTER && byte <= LAST_LETTER) ? byte : '?';
}

static void put_line(const struct show *show, const uint8_t *line, size_t length) {
    for (size_t i = 0; i < length; i++) {
        (void)putchar(show->is_terminal ? show_harmless(line[i]) : line[i]);
    }
}

void show_block(const struct show *show, const char *title, const uint8_t *text, size_t length) {
    if (show->is_quiet) {
        return;
    }
    (void)printf("%s%s:\n", TITLE_INDENT, title);
    while (length > 0) {
        const uint8_t *line_end = memchr(text, '\n', length);
        size_t line = line_end == NULL ? length : (size_t)(line_end - text);
        size_t passed = line_end == NULL ? line : line + 1;
        (void)fputs(LINE_INDENT, stdout);
        put_line(show, text, line);
        (void)putchar('\n');
        text += passed;
        length -= passed;
    }
}

void show_text(const uint8_t *text, size_t length) {
    if (length > 0) {
        (void)fwrite(text, 1, length, stdout);
    }
}

bool show_flush(void) {
    return fflush(stdout) == 0 && ferror(stdout) == 0;
}

bool show_end(void) {
    if (show_flush()) {
        return true;
    }
    complain("standard output cannot be written");
    return false;
}
