/* A command's arguments: options, in any order and place, and the others. */
#ifndef OPTIONS_H
#define OPTIONS_H

#include "bytes.h"

/* An option, with where its value goes; just one of the four places is given, and says what the option takes. */
struct option {
    const char *name;
    bool *flag;
    const char **text;
    uint64_t *number;
    uint64_t least; /* of a number */
    uint64_t most;
    struct bytes *list; /* numbers of 32 bits, as the library takes them */
};

/* The arguments that are no options, in their order. */
struct operands {
    char **at;
    size_t count;
};

/* Takes the options out of the arguments, whose row then holds the operands. False after a complaint. */
bool options_read(int count, char **arguments, const struct option *options, size_t option_count, struct operands *operands);

/* Whether so many letters are the digits of a number of 64 bits, which is then given. */
bool options_digits(const char *text, size_t length, uint64_t *number);

/* A number in digits from `least` to `most`; false after a complaint that calls it `what`. */
bool options_number(const char *text, const char *what, uint64_t least, uint64_t most, uint64_t *number);

#endif
