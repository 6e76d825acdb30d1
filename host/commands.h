/* The program's commands. Each gets the arguments behind its name, and answers the exit status. */
#ifndef COMMANDS_H
#define COMMANDS_H

#include "complain.h"
#include "options.h"
#include "writer.h"

enum status command_check(int count, char **arguments);
enum status command_print(int count, char **arguments);
enum status command_trace(int count, char **arguments);
enum status command_listing(int count, char **arguments);
enum status command_nodes(int count, char **arguments);
enum status command_audit(int count, char **arguments);
enum status command_prove(int count, char **arguments);
enum status command_new(int count, char **arguments);
enum status command_append(int count, char **arguments);
enum status command_extend(int count, char **arguments);
enum status command_equate(int count, char **arguments);
enum status command_record(int count, char **arguments);
enum status command_point(int count, char **arguments);
enum status command_work(int count, char **arguments);

/* Helpers of the commands: each is false after a complaint. */

/* A writer with the book of a file; the second lets `-` stand for standard input. */
bool command_open(struct writer *writer, const char *path);
bool command_open_input(struct writer *writer, const char *path);

/* Writes a book to a file, whole or not at all. */
bool command_write(const char *path, const struct bytes *book);

/* Whether a call was accepted; a refusal is told with its number and meaning. */
bool command_accepted(const char *path, uint32_t refusal);

/*
 * Whether a book that passes the book test has good names, and good sorts. Where `is_raw` is given the first that is bad only gets a
 * warning, and the answer is true.
 */
bool command_names(const char *path, const struct bytes *book, bool is_raw);
bool command_sorts(const char *path, const struct bytes *book, bool is_raw);

/* Whether z3 reads the names as they are meant. Where it does not it may prove what is wrong, so this is never a warning only. */
bool command_names_for_z3(const char *path, const struct bytes *book);

#endif
