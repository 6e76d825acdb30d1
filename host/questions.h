/* Questions, and lists of them as the library takes them: node and term in turn, numbers of 32 bits. */
#ifndef QUESTIONS_H
#define QUESTIONS_H

#include "bytes.h"

struct question {
    uint32_t node;
    uint32_t term;
};

size_t questions_count(const struct bytes *questions);
struct question question_at(const struct bytes *questions, size_t place);

/* The next two add questions at the end. False after a complaint. */

/* Words by pairs, NODE and TERM. */
bool questions_of_words(char *const *words, size_t count, struct bytes *questions);

/* The lines of a file, or of standard input for `-`: NODE TERM NAME, as `plan book --goals` prints them. The name may be missing. */
bool questions_of_file(const char *path, struct bytes *questions);

#endif
