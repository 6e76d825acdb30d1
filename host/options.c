#include "options.h"

#include "complain.h"
#include "numbers.h"

#include <inttypes.h>
#include <string.h>

bool options_digits(const char *text, size_t length, uint64_t *number) {
    uint64_t value = 0;
    for (size_t i = 0; i < length; i++) {
        if (text[i] < '0' || text[i] > '9') {
            return false;
        }
        uint64_t digit = (uint64_t)(text[i] - '0');
        if (value > (UINT64_MAX - digit) / 10) {
            return false;
        }
        value = value * 10 + digit;
    }
    *number = value;
    return length > 0;
}

bool options_number(const char *text, const char *what, uint64_t least, uint64_t most, uint64_t *number) {
    if (options_digits(text, strlen(text), number) && *number >= least && *number <= most) {
        return true;
    }
    complain("%s is a number from %" PRIu64 " to %" PRIu64 ", not %s", what, least, most, text);
    return false;
}

/* The option that an argument names, alone or with `=` and its value behind it. */
static const struct option *option_of(const char *argument, const struct option *options, size_t count) {
    size_t name_length = strcspn(argument, "=");
    for (size_t i = 0; i < count; i++) {
        if (strlen(options[i].name) == name_length && strncmp(options[i].name, argument, name_length) == 0) {
            return &options[i];
        }
    }
    return NULL;
}

/* Numbers with commas between them. */
static bool take_list(const struct option *option, const char *value) {
    bool has_more = true;
    option->list->length = 0;
    for (const char *from = value; has_more;) {
        size_t length = strcspn(from, ",");
        uint64_t number = 0;
        if (!options_digits(from, length, &number) || number > UINT32_MAX) {
            complain("%s is a row of numbers from 0 to %" PRIu32 " with commas between them, not %s", option->name, UINT32_MAX, value);
            return false;
        }
        if (!number_add(option->list, (uint32_t)number)) {
            complain("the memory does not suffice");
            return false;
        }
        has_more = from[length] == ',';
        from += length + 1;
    }
    return true;
}

static bool take_value(const struct option *option, const char *value) {
    if (option->list != NULL) {
        return take_list(option, value);
    }
    if (option->text != NULL) {
        *option->text = value;
        return true;
    }
    return options_number(value, option->name, option->least, option->most, option->number);
}

/* Takes the option at `*at`, and its value behind it where it needs one. */
static bool take_option(int count, char **arguments, int *at, const struct option *options, size_t option_count) {
    const char *argument = arguments[*at];
    const struct option *option = option_of(argument, options, option_count);
    if (option == NULL) {
        complain("there is no option %s here", argument);
        return false;
    }
    const char *value = strchr(argument, '=');
    if (option->flag != NULL) {
        *option->flag = true;
        if (value != NULL) {
            complain("%s takes no value", option->name);
        }
        return value == NULL;
    }
    if (value != NULL) {
        return take_value(option, value + 1);
    }
    (*at)++;
    if (*at == count) {
        complain("%s needs a value", option->name);
        return false;
    }
    return take_value(option, arguments[*at]);
}

bool options_read(int count, char **arguments, const struct option *options, size_t option_count, struct operands *operands) {
    bool may_be_option = true;
    *operands = (struct operands){arguments, 0};
    for (int at = 0; at < count; at++) {
        if (may_be_option && strcmp(arguments[at], "--") == 0) {
            may_be_option = false;
        } else if (may_be_option && arguments[at][0] == '-' && arguments[at][1] != '\0') {
            if (!take_option(count, arguments, &at, options, option_count)) {
                return false;
            }
        } else {
            operands->at[operands->count++] = arguments[at];
        }
    }
    return true;
}
