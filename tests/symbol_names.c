/*
 * What becomes of a name, given at once to a type, a constant and a function: printed, declared and asserted as it stands where it is a
 * simple symbol of SMT-LIB 2.6 or stands between bars, and else between bars. Around it the texts are written out by hand.
 */
#include "text_calls.h"

enum { LONGEST_NAME = MOST_LETTERS, ROOM_NAME = LONGEST_NAME + 3, ROOT = 0 };

/* Node 1 says the constant, node 2 beside it the function of the constant; the rule binds the constant in such a term. */
enum { CONSTANT_NODE = 1, FUNCTION_NODE, CONSTANT_TERM = 0, FUNCTION_TERM = 2, RULE_TERM = 5, LET_TERM = 8 };

static void name_all(const char *name) {
    memset(&records, 0, sizeof records);
    add_name(&records, name);
    ADD(&records, TYPES, 0);
    ADD(&records, CONSTANTS, 0, USER_TYPE);
    ADD(&records, FUNCTIONS, 0, USER_TYPE, 0, 1);
    ADD(&records, LISTS, USER_TYPE);
    ADD(&records, TERMS, ID, 0);
    ADD(&records, TERMS, ID, 0);
    ADD(&records, TERMS, FUNCTION, 0, 1, 1);
    ADD(&records, LISTS, 1);
    ADD(&records, TERMS, ID, 0);
    ADD(&records, TERMS, FUNCTION, 0, 2, 1);
    ADD(&records, LISTS, 3);
    ADD(&records, TERMS, QUANTIFIER, 1, 3, 1, 0, 0, 4);
    ADD(&records, LISTS, 0);
    ADD(&records, TERMS, ID, 0);
    ADD(&records, TERMS, ID, 0);
    ADD(&records, TERMS, LET, 0, 6, 7);
    ADD(&records, CONTEXTS, ROOT, CONSTANT_TERM);
    ADD(&records, CONTEXTS, ROOT, FUNCTION_TERM);
    lay_book();
}

/* A text in which # stands for the symbol. */
static const char *with_symbol(const char *form, const char *symbol) {
    static char wanted[ROOM_TEXT];
    size_t length = 0;
    for (; *form != '\0'; form++) {
        const char letter[] = {*form, '\0'};
        const char *part = *form == '#' ? symbol : letter;
        memcpy(wanted + length, part, strlen(part));
        length += strlen(part);
    }
    wanted[length] = '\0';
    return wanted;
}

static int is_sent_as(const char *name, const char *symbol) {
    name_all(name);
    return writes(print_call, CONSTANT_TERM, 0, symbol) && writes(print_call, FUNCTION_TERM, 0, with_symbol("(# #)", symbol)) &&
           writes(print_call, RULE_TERM, 0, with_symbol("(forall ((# #)) (# #))", symbol)) &&
           writes(print_call, LET_TERM, 0, with_symbol("(let ((# #)) #)", symbol)) &&
           writes(move_call, CONSTANT_NODE, 0,
                  with_symbol("(push 1)\n(declare-sort # 0)\n(declare-fun # () #)\n(assert #)\n", symbol)) &&
           writes(move_call, FUNCTION_NODE, 0,
                  with_symbol("(push 1)\n(declare-sort # 0)\n(declare-fun # (#) #)\n(declare-fun # () #)\n(assert (# #))\n", symbol)) &&
           writes(listing_call, FUNCTION_NODE, CONSTANT_TERM,
                  with_symbol("----- Proof obligation:\n  #(#)\n  |-\n  #\n", name));
}

static int is_refused(const char *name) {
    name_all(name);
    return refuses(print_call, CONSTANT_TERM, 0, LESKOFAR_BAD_NAME) && refuses(move_call, CONSTANT_NODE, 0, LESKOFAR_BAD_NAME) &&
           refuses(listing_call, CONSTANT_NODE, CONSTANT_TERM, LESKOFAR_BAD_NAME);
}

static void expect_kept(const char *name) {
    expect(name, is_sent_as(name, name));
}

static void expect_barred(const char *name) {
    static char symbol[ROOM_NAME];
    symbol[0] = '|';
    strcpy(symbol + 1, name);
    strcat(symbol, "|");
    expect(name, is_sent_as(name, symbol));
}

static void worked_tests(void) {
    static const char *const kept[] = {"x",  "box_1", "~!@$%^&*_-+=<>.?/", "-5",   "-",     "@x",   ".x",  "true", "not",  "Bool",   "Int",
                                       "||", "| |",   "|abc|",             "|40|", "|let|", "|;()|", "|\"|", "|a:b|", "ite", "|- 5|", "a9"};
    static const char *const barred[] = {"red 40", "40", "0",   "9a",   "1.5", "#x0", "a:b", " ",
                                         "a ",     " a", "a;b", "a\"b", "(",   "()",  "a,b", "'a"};
    for (size_t i = 0; i < sizeof kept / sizeof kept[0]; i++) {
        expect_kept(kept[i]);
    }
    for (size_t i = 0; i < sizeof barred / sizeof barred[0]; i++) {
        expect_barred(barred[i]);
    }
    expect("let", is_sent_as("let", "|let|"));
    expect("red 40", is_sent_as("red 40", "|red 40|"));
    expect("40", is_sent_as("40", "|40|"));
}

/* Each letter that a name may have, alone and behind another. */
static void letter_tests(void) {
    enum { FIRST_LETTER = ' ', LAST_LETTER = '~' };
    static const char alone[] = "ABCDEFGHIJKLMNOPQRSTUVWXYZabcdefghijklmnopqrstuvwxyz~@$%^&*-+=<>.?/";
    static const char behind_only[] = "0123456789!_";
    static const char bad[] = "|\\";
    for (char letter = FIRST_LETTER; letter <= LAST_LETTER; letter++) {
        const char one[] = {letter, '\0'};
        const char two[] = {'x', letter, '\0'};
        if (strchr(bad, letter) != NULL) {
            expect(one, is_refused(one) && is_refused(two));
            continue;
        }
        int is_simple = strchr(alone, letter) != NULL;
        (is_simple ? expect_kept : expect_barred)(one);
        (is_simple || strchr(behind_only, letter) != NULL ? expect_kept : expect_barred)(two);
    }
}

static const char *const RESERVED[] = {
    "!", "_", "as", "BINARY", "DECIMAL", "exists", "HEXADECIMAL", "forall", "let", "match", "NUMERAL", "par", "STRING",
    "assert", "check-sat", "check-sat-assuming", "declare-const", "declare-datatype", "declare-datatypes", "declare-fun", "declare-sort",
    "define-fun", "define-fun-rec", "define-funs-rec", "define-sort", "echo", "exit", "get-assertions", "get-assignment", "get-info",
    "get-model", "get-option", "get-proof", "get-unsat-assumptions", "get-unsat-core", "get-value", "pop", "push", "reset",
    "reset-assertions", "set-info", "set-logic", "set-option",
};
enum { RESERVED_COUNT = sizeof RESERVED / sizeof RESERVED[0], ALL_RESERVED = 13 + 30 };
_Static_assert(RESERVED_COUNT == ALL_RESERVED, "13 general words and 30 commands");

static void expect_word(const char *word) {
    int is_reserved = 0;
    for (int i = 0; i < RESERVED_COUNT; i++) {
        is_reserved = is_reserved || strcmp(RESERVED[i], word) == 0;
    }
    (is_reserved ? expect_barred : expect_kept)(word);
}

static char other_case(char letter) {
    static const char small[] = "abcdefghijklmnopqrstuvwxyz";
    static const char capital[] = "ABCDEFGHIJKLMNOPQRSTUVWXYZ";
    const char *in_small = strchr(small, letter);
    const char *in_capital = strchr(capital, letter);
    return in_small != NULL ? capital[in_small - small] : in_capital != NULL ? small[in_capital - capital] : letter;
}

/* Each reserved word, with a letter more at either end, one less, and with each letter, or all of them, of the other case. */
static void reserved_tests(void) {
    enum { ROOM_WORD = 32 };
    for (int i = 0; i < RESERVED_COUNT; i++) {
        const size_t length = strlen(RESERVED[i]);
        char changed[ROOM_WORD] = "x";
        expect_word(RESERVED[i]);
        expect_word(strcat(changed, RESERVED[i]));
        expect_word(strcat(strcpy(changed, RESERVED[i]), "x"));
        if (length > 1) {
            expect_word(RESERVED[i] + 1);
            strcpy(changed, RESERVED[i])[length - 1] = '\0';
            expect_word(changed);
        }
        char other[ROOM_WORD] = "";
        for (size_t place = 0; place < length; place++) {
            strcpy(changed, RESERVED[i])[place] = other_case(RESERVED[i][place]);
            expect_word(changed);
            other[place] = changed[place];
        }
        expect_word(other);
    }
}

/* Names of as many letters as a book may have. */
static void long_tests(void) {
    static char name[ROOM_NAME];
    static char symbol[ROOM_NAME];
    memset(name, 'a', LONGEST_NAME);
    expect("8,192 letters", is_sent_as(name, name));
    for (int i = 0; i < 2; i++) {
        name[i == 0 ? 0 : LONGEST_NAME - 1] = i == 0 ? '4' : ' ';
        strcat(strcat(strcpy(symbol, "|"), name), "|");
        expect("8,192 letters that need bars", is_sent_as(name, symbol));
    }
    name[0] = name[LONGEST_NAME - 1] = '|';
    expect("8,192 letters with their bars", is_sent_as(name, name));
    name[LONGEST_NAME / 2] = '\\';
    expect("8,192 letters with a backslash inside", is_refused(name));
}

int main(void) {
    worked_tests();
    letter_tests();
    reserved_tests();
    long_tests();
    return close_tests();
}
