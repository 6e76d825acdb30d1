#include "sentence.h"

#include "show.h"

#include <limits.h>
#include <stdarg.h>
#include <stdio.h>

/* The most words added at once, and the most letters of a name that are shown. */
enum { MOST_WORDS = 200, MOST_SHOWN = 60 };

static const char CUT[] = "...";
static const char QUOTE[] = "\"";

/* What is added is not looked at one by one: a sentence may stay shorter. */

void sentence_add(struct bytes *sentence, const char *format, ...) {
    char words[MOST_WORDS];
    va_list values;
    va_start(values, format);
    int length = vsnprintf(words, sizeof words, format, values);
    va_end(values);
    if (length > 0) {
        (void)bytes_add_text(sentence, words);
    }
}

void sentence_add_name(struct bytes *sentence, struct letters name) {
    uint8_t shown[MOST_SHOWN] = {0};
    size_t length = name.length <= MOST_SHOWN ? name.length : MOST_SHOWN;
    for (size_t i = 0; i < length; i++) {
        shown[i] = show_harmless(name.at[i]);
    }
    (void)bytes_add(sentence, shown, length);
    if (length < name.length) {
        (void)bytes_add_text(sentence, CUT);
    }
}

void sentence_add_quoted(struct bytes *sentence, struct letters name) {
    (void)bytes_add_text(sentence, QUOTE);
    sentence_add_name(sentence, name);
    (void)bytes_add_text(sentence, QUOTE);
}

const char *sentence_text(const struct bytes *sentence) {
    return sentence->at == NULL ? "" : (const char *)sentence->at;
}

int sentence_length(const struct bytes *sentence) {
    return sentence->length <= INT_MAX ? (int)sentence->length : INT_MAX;
}
