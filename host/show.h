/* What goes to standard output. Colours and the count of questions only go to a terminal. */
#ifndef SHOW_H
#define SHOW_H

#include <stdbool.h>
#include <stddef.h>
#include <stdint.h>

struct show {
    bool is_quiet;
    bool is_terminal;
    bool has_colours;
};

enum colour { GREEN, YELLOW, RED };

struct show show_begin(bool is_quiet);

/* How many questions are done, on a line that the next output takes away. */
void show_count(const struct show *show, size_t done, size_t of);

/* A question's line: what it is, and what came of it. */
void show_result(const struct show *show, uint32_t node, uint32_t term, enum colour colour, const char *result);

/* A byte as a terminal may get it: `?` in place of one that would steer it. */
uint8_t show_harmless(uint8_t byte);

/* A text with its title, indented; on a terminal its bytes are made harmless. */
void show_block(const struct show *show, const char *title, const uint8_t *text, size_t length);

/* The text alone. */
void show_text(const uint8_t *text, size_t length);

/* Whoever waits or looks on gets what there is at once, also through a pipe. False where something could not be written. */
bool show_flush(void);

/* False where something could not be written, after a complaint. */
bool show_end(void);

#endif
