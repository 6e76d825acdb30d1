/* What the operators of SMT-LIB's core and integers take and give. */
#ifndef SIGNATURES_H
#define SIGNATURES_H

#include "book_view.h"

/* A sort is a type number, or this where it is not known. */
#define SORT_ANY UINT32_MAX

/* Where an operator takes any number of arguments from its least on. */
#define ARGUMENTS_NO_MOST UINT32_MAX

struct signature {
    const char *name;
    uint32_t least; /* numbers of arguments */
    uint32_t most;
    uint32_t takes; /* the sort of each argument; any means that they all have one sort, whichever it is */
    uint32_t gives;
};

/* NULL for an operator that is not known. */
const struct signature *signature_of(struct letters operator);

#endif
