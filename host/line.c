#include "line.h"

#include "complain.h"

#include <errno.h>
#include <stdio.h>
#include <string.h>

static const char BLANKS[] = " \t";
enum { QUOTE = '"', COMMENT = ';' };

static enum line_state bad(const char *why) {
    complain("%s", why);
    return LINE_BAD;
}

/* Adds a byte of the line. */
static bool add(struct line *line, int byte) {
    uint8_t added = (uint8_t)byte;
    return bytes_add(&line->text, &added, sizeof added);
}

/* Reads up to the line end, and puts a zero byte in its place. */
static enum line_state read_text(struct line *line) {
    int byte = getchar();
    line->text.length = 0;
    while (byte != EOF && byte != '\n' && byte != '\0' && line->text.length < LINE_MOST_BYTES) {
        if (!add(line, byte)) {
            return bad("the memory does not suffice");
        }
        byte = getchar();
    }
    if (byte == EOF && ferror(stdin) != 0) {
        complain("standard input cannot be read: %s", strerror(errno));
        return LINE_BAD;
    }
    if (byte == EOF) {
        return line->text.length == 0 ? LINE_END : bad("the line has no line end");
    }
    if (byte != '\n') {
        return bad(byte == '\0' ? "there is a zero byte" : "the line is longer than any that can be done");
    }
    return add(line, '\0') ? LINE_READ : bad("the memory does not suffice");
}

/* Takes the quotes of a word away; gives where it ends, or NULL where it does not. */
static char *unquote(char *word) {
    char *from = word + 1;
    char *to = word;
    while (*from != '\0' && (from[0] != QUOTE || from[1] == QUOTE)) {
        from += from[0] == QUOTE ? 1 : 0;
        *to++ = *from++;
    }
    if (*from == '\0') {
        return NULL;
    }
    *to = '\0';
    return from + 1;
}

/* Ends the word at its place, and gives what stands behind it; NULL after a complaint. */
static char *end_word(char *word) {
    bool is_quoted = *word == QUOTE;
    char *end = is_quoted ? unquote(word) : word + strcspn(word, BLANKS);
    if (end == NULL) {
        complain("a quote is left open");
        return NULL;
    }
    bool is_last = *end == '\0';
    if (!is_last && strchr(BLANKS, *end) == NULL) {
        complain("behind a quote that closes stands no blank");
        return NULL;
    }
    *end = '\0';
    if (!is_quoted && strchr(word, QUOTE) != NULL) {
        complain("a quote stands within a word");
        return NULL;
    }
    return is_last ? end : end + 1;
}

static enum line_state split(struct line *line) {
    char *at = (char *)line->text.at;
    line->count = 0;
    for (at += strspn(at, BLANKS); *at != '\0' && *at != COMMENT; at += strspn(at, BLANKS)) {
        if (line->count == LINE_MOST_WORDS) {
            return bad("there are more words than any line has");
        }
        line->words[line->count++] = at;
        at = end_word(at);
        if (at == NULL) {
            return LINE_BAD;
        }
    }
    return LINE_READ;
}

enum line_state line_next(struct line *line) {
    enum line_state state = LINE_READ;
    line->count = 0;
    while (state == LINE_READ && line->count == 0) {
        complain_of_line(++line->number);
        state = read_text(line);
        if (state == LINE_READ) {
            state = split(line);
        }
    }
    if (state == LINE_END) {
        complain_of_line(0);
    }
    return state;
}

void line_free(struct line *line) {
    bytes_free(&line->text);
}
