#include "tokens.h"

#include <string.h>

static const char SIGNS[] = "~!@$%^&*_-+=<>.?/"; /* what a symbol may have besides letters and digits */
static const char HEXADECIMAL_BEGIN[] = "#x";
static const char BINARY_BEGIN[] = "#b";

enum { BAR = '|', BACKSLASH = '\\', MINUS = '-', POINT = '.', ZERO = '0' };

static const char *const GENERAL_WORDS[] = {
    "!", "_", "as", "BINARY", "DECIMAL", "exists", "HEXADECIMAL", "forall", "let", "match", "NUMERAL", "par", "STRING",
};

static const char *const COMMANDS[] = {
    "assert", "check-sat", "check-sat-assuming", "declare-const", "declare-datatype", "declare-datatypes", "declare-fun", "declare-sort",
    "define-fun", "define-fun-rec", "define-funs-rec", "define-sort", "echo", "exit", "get-assertions", "get-assignment", "get-info",
    "get-model", "get-option", "get-proof", "get-unsat-assumptions", "get-unsat-core", "get-value", "pop", "push", "reset",
    "reset-assertions", "set-info", "set-logic", "set-option",
};

static const char *const TAKEN[] = {
    "true", "false", "ite", "=", "=>", "and", "or", "not", "xor", "distinct", "<", "<=", ">", ">=", "+", "-", "*", "div", "mod", "abs",
};

static bool is_among(struct letters text, const char *const *words, size_t count) {
    for (size_t i = 0; i < count; i++) {
        if (letters_are_same(text, letters_of(words[i]))) {
            return true;
        }
    }
    return false;
}

static bool is_within(uint8_t letter, uint8_t first, uint8_t last) {
    return first <= letter && letter <= last;
}

static bool is_digit(uint8_t letter) {
    return is_within(letter, '0', '9');
}

static bool is_binary_digit(uint8_t letter) {
    return is_within(letter, '0', '1');
}

static bool is_hexadecimal_digit(uint8_t letter) {
    return is_digit(letter) || is_within(letter, 'a', 'f') || is_within(letter, 'A', 'F');
}

static bool is_symbol_letter(uint8_t letter) {
    return is_within(letter, 'a', 'z') || is_within(letter, 'A', 'Z') || is_digit(letter) ||
           memchr(SIGNS, letter, sizeof SIGNS - 1) != NULL;
}

/* How many letters from the begin on are of a sort. */
static size_t span(struct letters text, bool (*is_of_sort)(uint8_t letter)) {
    size_t length = 0;
    while (length < text.length && is_of_sort(text.at[length])) {
        length++;
    }
    return length;
}

/* At least one letter, and all of a sort. */
static bool is_row_of(struct letters text, bool (*is_of_sort)(uint8_t letter)) {
    return text.length > 0 && span(text, is_of_sort) == text.length;
}

static struct letters behind(struct letters text, size_t length) {
    return (struct letters){text.at + length, text.length - length};
}

static bool begins_with(struct letters text, const char *begin) {
    size_t length = strlen(begin);
    return text.length >= length && memcmp(text.at, begin, length) == 0;
}

static bool is_between_bars(struct letters text) {
    return text.length >= 2 && text.at[0] == BAR && text.at[text.length - 1] == BAR;
}

struct letters token_symbol(struct letters text) {
    return is_between_bars(text) ? (struct letters){text.at + 1, text.length - 2} : text;
}

/* Whether a text could end or leave the bars that it stands between. */
static bool breaks_bars(struct letters text) {
    return memchr(text.at, BAR, text.length) != NULL || memchr(text.at, BACKSLASH, text.length) != NULL;
}

bool token_is_symbol(struct letters text) {
    if (is_between_bars(text)) {
        return !breaks_bars(token_symbol(text));
    }
    return is_row_of(text, is_symbol_letter) && !is_digit(text.at[0]);
}

/* Digits, then, if there is more, a point and digits. */
static bool is_digits_or_fraction(struct letters text) {
    size_t whole = span(text, is_digit);
    bool ends_there = whole == text.length;
    return whole > 0 && (ends_there || (text.at[whole] == POINT && is_row_of(behind(text, whole + 1), is_digit)));
}

/* The whole part of a number is 0 or begins with another digit. */
static bool has_leading_zero(struct letters text) {
    return text.at[0] == ZERO && span(text, is_digit) > 1;
}

bool token_is_number(struct letters text) {
    if (begins_with(text, HEXADECIMAL_BEGIN)) {
        return is_row_of(behind(text, strlen(HEXADECIMAL_BEGIN)), is_hexadecimal_digit);
    }
    if (begins_with(text, BINARY_BEGIN)) {
        return is_row_of(behind(text, strlen(BINARY_BEGIN)), is_binary_digit);
    }
    return is_digits_or_fraction(text) && !has_leading_zero(text);
}

bool token_looks_like_negative_number(struct letters symbol) {
    return symbol.length > 0 && symbol.at[0] == MINUS && is_digits_or_fraction(behind(symbol, 1));
}

bool token_is_general_word(struct letters symbol) {
    return is_among(symbol, GENERAL_WORDS, sizeof GENERAL_WORDS / sizeof GENERAL_WORDS[0]);
}

bool token_is_reserved(struct letters symbol) {
    return token_is_general_word(symbol) || is_among(symbol, COMMANDS, sizeof COMMANDS / sizeof COMMANDS[0]);
}

bool token_is_taken(struct letters symbol) {
    return is_among(symbol, TAKEN, sizeof TAKEN / sizeof TAKEN[0]);
}
