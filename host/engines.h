/* The solvers that the program knows, each with the options that it needs, and any other command. */
#ifndef ENGINES_H
#define ENGINES_H

#include <stdbool.h>

enum { ENGINE_MOST_WORDS = 8 };

struct engine {
    const char *command[ENGINE_MOST_WORDS]; /* NULL behind the last word */
    bool is_z3;                             /* or a command for the shell that names it */
};

/* What `--solver` names: z3 or cvc5, alone or with the path to it, or a command for the shell. The name must stay as long as the engine. */
struct engine engine_named(const char *name);

#endif
