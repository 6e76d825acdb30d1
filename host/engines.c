#include "engines.h"

#include <stddef.h>
#include <string.h>
#include <unistd.h>

/* A solver of which the program knows what it needs. */
struct known {
    const char *name;
    struct engine engine; /* with no path before its name */
};

static const char Z3[] = "z3";

static const struct known KNOWN[] = {
    /* z3 reads SMT-LIB from its standard input. */
    {Z3, {{Z3, "-smt2", "-in", NULL}, .is_z3 = true}},
    /* cvc5 has to be told of pushes, of models, and which theories to have ready; without the last it warns. */
    {"cvc5", {{"cvc5", "--lang=smt2", "--incremental", "--produce-models", "--force-logic=ALL", NULL}, .is_z3 = false}}};
enum { KNOWN_COUNT = sizeof KNOWN / sizeof KNOWN[0] };

static const char BLANKS[] = " \t";

/* The letters that mean nothing to the shell, wherever they stand; only `=` makes the first word an assignment. */
static const char PLAIN[] = "abcdefghijklmnopqrstuvwxyzABCDEFGHIJKLMNOPQRSTUVWXYZ0123456789_./=+,:@%- \t";

/* Words that the shell itself follows, and for which there is no program. */
static const char *const OF_THE_SHELL[] = {"exec", "command", "eval", "."};
enum { OF_THE_SHELL_COUNT = sizeof OF_THE_SHELL / sizeof OF_THE_SHELL[0] };

/* `exec` before the words of $1: the shell becomes the solver, and nobody stands between it and its keeper. */
static const char BECOME[] = "eval \"exec $1\"";

static bool is_plain(const char *text) {
    return text[strspn(text, PLAIN)] == '\0';
}

/* A name with other letters may be a file's all the same. */
static bool is_path(const char *name) {
    return (is_plain(name) && strpbrk(name, BLANKS) == NULL) || access(name, F_OK) == 0;
}

static const char *last_part(const char *path) {
    const char *slash = strrchr(path, '/');
    return slash == NULL ? path : slash + 1;
}

static bool is_of_the_shell(const char *word, size_t length) {
    for (size_t i = 0; i < OF_THE_SHELL_COUNT; i++) {
        if (strlen(OF_THE_SHELL[i]) == length && strncmp(OF_THE_SHELL[i], word, length) == 0) {
            return true;
        }
    }
    return false;
}

/* Whether a command is a program with its arguments, so that the shell can become it. */
static bool is_program(const char *command) {
    const char *word = command + strspn(command, BLANKS);
    size_t length = strcspn(word, BLANKS);
    return length > 0 && is_plain(command) && memchr(word, '=', length) == NULL && !is_of_the_shell(word, length);
}

struct engine engine_named(const char *name) {
    for (size_t i = 0; i < KNOWN_COUNT; i++) {
        if (strcmp(last_part(name), KNOWN[i].name) == 0 && is_path(name)) {
            struct engine engine = KNOWN[i].engine;
            engine.command[0] = name;
            return engine;
        }
    }
    bool is_z3 = strstr(name, Z3) != NULL;
    if (is_program(name)) {
        return (struct engine){{"/bin/sh", "-c", BECOME, "/bin/sh", name, NULL}, is_z3};
    }
    return (struct engine){{"/bin/sh", "-c", name, NULL}, is_z3};
}
