#include "refusals.h"

#include <leskofar.h>
#include <stdbool.h>

const char *refusal_meaning(uint32_t refusal) {
    switch ((enum leskofar_refusal)refusal) {
    case LESKOFAR_ACCEPTED:
        return "accepted";
    case LESKOFAR_SHORT_SCRATCH:
        return "the scratch is shorter than 128 bytes";
    case LESKOFAR_BAD_CONTENTS:
        return "the book is under 80 bytes, or its table of contents is not as laid out";
    case LESKOFAR_COUNT_OVER_LIMIT:
        return "a section of the book has more records than it may";
    case LESKOFAR_FIELD_OUT_OF_RANGE:
        return "a field or list entry of the book is out of range, an unused field is not 0, or a letter is bad";
    case LESKOFAR_NO_FOREST:
        return "a child is not smaller than its parent, or a term is referred to twice";
    case LESKOFAR_TOO_DEEP:
        return "a node is deeper than 400";
    case LESKOFAR_NOT_IN_BOOK:
        return "the node or term is not in the book";
    case LESKOFAR_REPLY_IS_UNSAT:
        return "a model is given for the reply unsat";
    case LESKOFAR_MISSING_AXIOM:
        return "a function that is needed there is explained by an axiom without a term";
    case LESKOFAR_BUFFER_TOO_SHORT:
        return "the text, the reason or the new book is longer than its buffer";
    case LESKOFAR_NO_OPERATOR:
        return "the operator's code is not from 1 to 14";
    case LESKOFAR_NO_SESSION:
        return "the session is not one that this book's calls leave";
    case LESKOFAR_QUESTION_OPEN:
        return "a reply or model is owed";
    case LESKOFAR_NO_REPLY_OWED:
        return "a reply is given and none is owed";
    case LESKOFAR_NO_MODEL_OWED:
        return "a model is given and none is owed";
    case LESKOFAR_TOO_DEEP_FOR_NARROW:
        return "the session to be turned back is deeper than 64";
    case LESKOFAR_TAG_IN_BOOK:
        return "the book holds a %tag literal";
    case LESKOFAR_FOREIGN_LINE:
        return "a line of the script is no command of ours, or pops the first level";
    case LESKOFAR_CHECKS_DIFFER:
        return "the script has more or fewer check-sats than there are questions";
    case LESKOFAR_BAD_NAME:
        return "a type, constant or function has an empty name or one with a bar or backslash inside, or a literal has a bar or backslash "
               "in its text or type";
    }
    return "a number that no refusal has";
}

const char *refusal_place(uint32_t refusal) {
    bool is_of_book = (refusal >= LESKOFAR_BAD_CONTENTS && refusal <= LESKOFAR_TOO_DEEP) || refusal == LESKOFAR_BAD_NAME;
    return is_of_book ? ", as the book would become" : "";
}
