#include "signatures.h"

#include "tokens.h"

static const struct signature SIGNATURES[] = {
    {"=", 2, ARGUMENTS_NO_MOST, SORT_ANY, TYPE_BOOL},   {"distinct", 2, ARGUMENTS_NO_MOST, SORT_ANY, TYPE_BOOL},
    {"=>", 2, ARGUMENTS_NO_MOST, TYPE_BOOL, TYPE_BOOL}, {"and", 2, ARGUMENTS_NO_MOST, TYPE_BOOL, TYPE_BOOL},
    {"or", 2, ARGUMENTS_NO_MOST, TYPE_BOOL, TYPE_BOOL}, {"xor", 2, ARGUMENTS_NO_MOST, TYPE_BOOL, TYPE_BOOL},
    {"not", 1, 1, TYPE_BOOL, TYPE_BOOL},                {"<", 2, ARGUMENTS_NO_MOST, TYPE_INT, TYPE_BOOL},
    {"<=", 2, ARGUMENTS_NO_MOST, TYPE_INT, TYPE_BOOL},  {">", 2, ARGUMENTS_NO_MOST, TYPE_INT, TYPE_BOOL},
    {">=", 2, ARGUMENTS_NO_MOST, TYPE_INT, TYPE_BOOL},  {"+", 2, ARGUMENTS_NO_MOST, TYPE_INT, TYPE_INT},
    {"*", 2, ARGUMENTS_NO_MOST, TYPE_INT, TYPE_INT},    {"div", 2, ARGUMENTS_NO_MOST, TYPE_INT, TYPE_INT},
    {"-", 1, ARGUMENTS_NO_MOST, TYPE_INT, TYPE_INT},    {"mod", 2, 2, TYPE_INT, TYPE_INT},
    {"abs", 1, 1, TYPE_INT, TYPE_INT},
};

/* With bars an operator is the same one: z3 takes (|<=| x) as true too. */
const struct signature *signature_of(struct letters operator) {
    struct letters symbol = token_symbol(operator);
    for (size_t i = 0; i < sizeof SIGNATURES / sizeof SIGNATURES[0]; i++) {
        if (letters_are_same(symbol, letters_of(SIGNATURES[i].name))) {
            return &SIGNATURES[i];
        }
    }
    return NULL;
}
