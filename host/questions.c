#include "questions.h"

#include "complain.h"
#include "input_file.h"
#include "numbers.h"
#include "options.h"

#include <inttypes.h>
#include <string.h>

enum { QUESTION_SIZE = 2 * NUMBER_SIZE, BLANK = ' ' };

/* Far more than the questions of any script that is taken; whatever is longer is not read to its end. */
enum { FILE_MOST = 1 << 24 };

size_t questions_count(const struct bytes *questions) {
    return questions->length / QUESTION_SIZE;
}

struct question question_at(const struct bytes *questions, size_t place) {
    const uint8_t *at = questions->at + place * QUESTION_SIZE;
    return (struct question){number_at(at), number_at(at + NUMBER_SIZE)};
}

static bool add(struct bytes *questions, const struct question *question) {
    bool is_added = number_add(questions, question->node) && number_add(questions, question->term);
    if (!is_added) {
        complain("the memory does not suffice");
    }
    return is_added;
}

bool questions_of_words(char *const *words, size_t count, struct bytes *questions) {
    bool is_read = true;
    for (size_t i = 0; is_read && i + 1 < count; i += 2) {
        uint64_t node = 0;
        uint64_t term = 0;
        is_read = options_number(words[i], "NODE", 0, UINT32_MAX, &node) &&
                  options_number(words[i + 1], "TERM", 0, UINT32_MAX, &term) &&
                  add(questions, &(struct question){(uint32_t)node, (uint32_t)term});
    }
    return is_read;
}

/* Takes a number off the front of a line: its digits up to the first blank, and that blank. */
static bool take_number(const char **line, size_t *length, uint32_t *number) {
    const char *blank = memchr(*line, BLANK, *length);
    size_t digits = blank == NULL ? *length : (size_t)(blank - *line);
    size_t passed = blank == NULL ? digits : digits + 1;
    uint64_t value = 0;
    if (!options_digits(*line, digits, &value) || value > UINT32_MAX) {
        return false;
    }
    *number = (uint32_t)value;
    *line += passed;
    *length -= passed;
    return true;
}

/* What stands behind the numbers is a name that nobody looks at. */
static bool read_line(const char *name, size_t number, const char *line, size_t length, struct bytes *questions) {
    struct question question = {0};
    if (!take_number(&line, &length, &question.node) || !take_number(&line, &length, &question.term)) {
        complain("%s: line %zu is no question: NODE TERM NAME, numbers from 0 to %" PRIu32, name, number, UINT32_MAX);
        return false;
    }
    return add(questions, &question);
}

/* Every line has its end: a number that is cut short would be another one. */
static bool read_lines(const char *name, const struct bytes *text, struct bytes *questions) {
    const char *line = (const char *)text->at;
    size_t left = text->length;
    for (size_t number = 1; left > 0; number++) {
        const char *end = memchr(line, '\n', left);
        if (end == NULL) {
            complain("%s: line %zu has no line end", name, number);
            return false;
        }
        size_t length = (size_t)(end - line);
        if (!read_line(name, number, line, length, questions)) {
            return false;
        }
        line += length + 1;
        left -= length + 1;
    }
    return true;
}

bool questions_of_file(const char *path, struct bytes *questions) {
    struct bytes text = {0};
    const char *name = input_name(path);
    bool is_read = input_read(path, FILE_MOST, &text);
    if (is_read && text.length > FILE_MOST) {
        complain("%s: no list of questions is longer than %d bytes", name, FILE_MOST);
        is_read = false;
    }
    is_read = is_read && read_lines(name, &text, questions);
    bytes_free(&text);
    return is_read;
}
