/* The lines of standard input, word by word. */
#ifndef LINE_H
#define LINE_H

#include "bytes.h"

/* More than any line has that can be done; what is longer is not read to its end. */
enum { LINE_MOST_BYTES = 1 << 20, LINE_MOST_WORDS = 16 };

/* One that is all zero stands before the first line. */
struct line {
    size_t number; /* counted from 1 */
    struct bytes text;
    char *words[LINE_MOST_WORDS]; /* they point into the text */
    int count;
};

enum line_state {
    LINE_READ, /* there is a line with at least one word */
    LINE_END,  /* there is none any more */
    LINE_BAD   /* what there is cannot be read, and that is told */
};

/*
 * Goes to the next line that has words. Blanks stand between words, and a word that holds blanks between quotes, in which a quote is
 * written twice. A word that begins with a semicolon begins a comment. Every line has its line end. From then on complaints are about
 * this line.
 */
enum line_state line_next(struct line *line);

void line_free(struct line *line);

#endif
