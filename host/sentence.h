/* Puts together what is said of a book or a solver. Where the memory does not suffice a sentence stays shorter, and is true. */
#ifndef SENTENCE_H
#define SENTENCE_H

#include "book_view.h"

/* Adds words, as printf does. */
void sentence_add(struct bytes *sentence, const char *format, ...);

/* Adds a text of a book, its bytes made harmless, and cut short where it is long. */
void sentence_add_name(struct bytes *sentence, struct letters name);

/* The same between quotes. */
void sentence_add_quoted(struct bytes *sentence, struct letters name);

/* The sentence for printf: its letters, and how many, for `%.*s`. */
const char *sentence_text(const struct bytes *sentence);
int sentence_length(const struct bytes *sentence);

#endif
