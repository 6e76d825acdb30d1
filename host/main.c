/* The host: holds a book, a session and a solver, and lets the proved library write what the solver is sent. */
#include "commands.h"
#include "help.h"
#include "show.h"
#include "signals.h"
#include "stack.h"

#include <fcntl.h>
#include <stdio.h>
#include <string.h>
#include <unistd.h>

struct command {
    const char *name;
    enum status (*run)(int count, char **arguments);
    const char *help;
};

static const struct command COMMANDS[] = {{"check", command_check, HELP_CHECK},
                                          {"print", command_print, HELP_PRINT},
                                          {"trace", command_trace, HELP_TRACE},
                                          {"listing", command_listing, HELP_LISTING},
                                          {"nodes", command_nodes, HELP_NODES},
                                          {"audit", command_audit, HELP_AUDIT},
                                          {"prove", command_prove, HELP_PROVE},
                                          {"new", command_new, HELP_NEW},
                                          {"append", command_append, HELP_APPEND},
                                          {"extend", command_extend, HELP_EXTEND},
                                          {"equate", command_equate, HELP_EQUATE},
                                          {"record", command_record, HELP_RECORD},
                                          {"point", command_point, HELP_POINT},
                                          {"work", command_work, HELP_WORK}};
enum { COMMAND_COUNT = sizeof COMMANDS / sizeof COMMANDS[0] };

static const char HELP[] = "--help";

static enum status show_help(const char *help) {
    (void)fputs(help, stdout);
    return show_end() ? STATUS_DONE : STATUS_REFUSED;
}

/* Whether the arguments ask for help, before a `--`. */
static bool asks_for_help(int count, char **arguments) {
    for (int i = 0; i < count && strcmp(arguments[i], "--") != 0; i++) {
        if (strcmp(arguments[i], HELP) == 0) {
            return true;
        }
    }
    return false;
}

static enum status run(const char *name, int count, char **arguments) {
    if (strcmp(name, HELP) == 0) {
        return show_help(HELP_PROGRAM);
    }
    for (size_t i = 0; i < COMMAND_COUNT; i++) {
        if (strcmp(name, COMMANDS[i].name) == 0) {
            return asks_for_help(count, arguments) ? show_help(COMMANDS[i].help) : COMMANDS[i].run(count, arguments);
        }
    }
    complain("there is no command %s; leskofar --help lists them", name);
    return STATUS_REFUSED;
}

/* Whoever closed a standard stream is not to find a pipe of ours in its place. What is opened here can be neither read nor written. */
static bool keep_streams(void) {
    int descriptor = 0;
    while (descriptor >= 0 && descriptor <= STDERR_FILENO) {
        descriptor = open("/", O_RDONLY);
    }
    return descriptor > STDERR_FILENO && close(descriptor) == 0;
}

/* The arguments behind the program's name. */
static enum status run_command(int count, char **arguments) {
    if (count < 1) {
        complain("a command is missing; leskofar --help lists them");
        return STATUS_REFUSED;
    }
    return run(arguments[0], count - 1, arguments + 1);
}

int main(int count, char **arguments) {
    if (!keep_streams() || !signals_prepare()) {
        complain("the system gives neither files nor signals");
        return STATUS_REFUSED;
    }
    return stack_run(run_command, count - 1, arguments + 1);
}
