/* What a text is to a reader of SMT-LIB. */
#ifndef TOKENS_H
#define TOKENS_H

#include "book_view.h"

/* The text without its bars where it stands between two: |a| and a are the same symbol. */
struct letters token_symbol(struct letters text);

/* A symbol, with bars or without: one token, and none that holds a bar or a backslash inside. */
bool token_is_symbol(struct letters text);

/* A numeral, decimal, hexadecimal or binary. */
bool token_is_number(struct letters text);

/* Of a text without its bars: what z3 takes for a number where it stands bare, and a reader where a solver prints it in a model. */
bool token_looks_like_negative_number(struct letters symbol);

/* Of a text without its bars: a reserved word of SMT-LIB 2.6 that is no command's name. */
bool token_is_general_word(struct letters symbol);

/* The same with the names of the commands, which are reserved too. */
bool token_is_reserved(struct letters symbol);

/* Of a text without its bars: a word or an operator that already means something in every term. */
bool token_is_taken(struct letters symbol);

#endif
