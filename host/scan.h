/*
 * Finds where the S-expressions of a text end. Parentheses in strings, between bars and in comments do not count. Whatever else stands
 * there is an item too, a comment outside of parentheses among them, so that nothing is passed over but blanks.
 */
#ifndef SCAN_H
#define SCAN_H

#include <stdbool.h>
#include <stddef.h>
#include <stdint.h>

enum scan_mode { SCAN_BETWEEN, SCAN_ATOM, SCAN_STRING, SCAN_ESCAPED, SCAN_QUOTE, SCAN_BARS, SCAN_COMMENT };

/* One that is all zero begins at byte 0. */
struct scan {
    enum scan_mode mode;
    size_t depth; /* how many parentheses are open */
    size_t next;  /* the first byte that was not looked at */
    size_t start; /* the item's begin and end; the end once it is found */
    size_t end;
    bool in_item;
};

/*
 * Goes on in bytes that begin as before and may have grown: true where an item has ended, else there are too few bytes. A word, string or
 * comment outside of parentheses ends at the byte behind it.
 */
bool scan_item(struct scan *scan, const uint8_t *bytes, size_t length);

/* Whether the bytes so far end in an item that has not ended. */
bool scan_is_open(const struct scan *scan);

#endif
