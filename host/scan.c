#include "scan.h"

#include <string.h>

/*
 * How an error begins. z3 writes a quote in its message as \", and a string elsewhere by SMT-LIB 2.6, where a backslash is a letter like
 * any other.
 */
static const char ERROR_BEGIN[] = "(error";

static bool is_blank(uint8_t byte) {
    return byte == ' ' || byte == '\t' || byte == '\n' || byte == '\r';
}

static bool ends_atom(uint8_t byte) {
    return is_blank(byte) || byte == '(' || byte == ')' || byte == '"' || byte == '|' || byte == ';';
}

static bool is_error(const struct scan *scan, const uint8_t *bytes) {
    size_t begin = sizeof ERROR_BEGIN - 1;
    return scan->next - scan->start >= begin && memcmp(bytes + scan->start, ERROR_BEGIN, begin) == 0;
}

/* The item ends before the byte at `end`. */
static bool item_ends(struct scan *scan, size_t end) {
    scan->end = end;
    scan->in_item = false;
    scan->mode = SCAN_BETWEEN;
    return true;
}

static void begin_item(struct scan *scan) {
    if (!scan->in_item) {
        scan->in_item = true;
        scan->start = scan->next;
    }
}

/* A token ends before the byte at hand; outside of parentheses so does the item. */
static bool token_ends(struct scan *scan) {
    scan->mode = SCAN_BETWEEN;
    return scan->depth == 0 && item_ends(scan, scan->next);
}

/* A `)` too many is an item of its own. */
static bool closes(struct scan *scan) {
    begin_item(scan);
    scan->depth -= scan->depth > 0;
    scan->next++;
    return scan->depth == 0 && item_ends(scan, scan->next);
}

/* A byte between tokens. */
static bool between(struct scan *scan, uint8_t byte) {
    if (byte == ')') {
        return closes(scan);
    }
    if (!is_blank(byte)) {
        begin_item(scan);
        if (byte == '(') {
            scan->depth++;
        } else {
            scan->mode = byte == '"' ? SCAN_STRING : byte == '|' ? SCAN_BARS : byte == ';' ? SCAN_COMMENT : SCAN_ATOM;
        }
    }
    scan->next++;
    return false;
}

/* A byte of a string: a quote may end it, or be the first of two that stand for one. */
static void in_string(struct scan *scan, const uint8_t *bytes) {
    uint8_t byte = bytes[scan->next];
    if (byte == '"') {
        scan->mode = SCAN_QUOTE;
    } else if (byte == '\\' && is_error(scan, bytes)) {
        scan->mode = SCAN_ESCAPED;
    }
    scan->next++;
}

/* Takes one byte, or ends what stands before it: true where an item has ended. */
static bool step(struct scan *scan, const uint8_t *bytes) {
    uint8_t byte = bytes[scan->next];
    switch (scan->mode) {
    case SCAN_BETWEEN:
        return between(scan, byte);
    case SCAN_ATOM:
        if (ends_atom(byte)) {
            return token_ends(scan);
        }
        scan->next++;
        return false;
    case SCAN_STRING:
        in_string(scan, bytes);
        return false;
    case SCAN_ESCAPED:
        scan->mode = SCAN_STRING;
        scan->next++;
        return false;
    case SCAN_QUOTE:
        if (byte != '"') {
            return token_ends(scan);
        }
        scan->mode = SCAN_STRING;
        scan->next++;
        return false;
    case SCAN_BARS:
        scan->next++;
        return byte == '|' && token_ends(scan);
    case SCAN_COMMENT:
        if (byte == '\n') {
            return token_ends(scan);
        }
        scan->next++;
        return false;
    }
    return false;
}

bool scan_item(struct scan *scan, const uint8_t *bytes, size_t length) {
    while (scan->next < length) {
        if (step(scan, bytes)) {
            return true;
        }
    }
    return false;
}

bool scan_is_open(const struct scan *scan) {
    return scan->in_item;
}
