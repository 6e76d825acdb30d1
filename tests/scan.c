/* Where S-expressions end: each text is given byte by byte and whole, and must fall into the items that stand beside it. */
#include "../host/scan.h"

#include <stdio.h>
#include <string.h>

enum { MOST_ITEMS = 4 };

struct row {
    const char *text;
    const char *items[MOST_ITEMS];
};

static const struct row TABLE[] = {
    {"", {0}},
    {" \t\r\n", {0}},
    {"unsat", {0}}, /* more letters may come */
    {"unsat\n", {"unsat"}},
    {"sat(a)b ", {"sat", "(a)", "b"}},
    {"()", {"()"}},
    {"(a (b) c)(d)", {"(a (b) c)", "(d)"}},
    {"(a (b) c", {0}},
    {") (a)", {")", "(a)"}},
    {"\"a b\" c\n", {"\"a b\"", "c"}},
    {"\"a\"\"b\"\n", {"\"a\"\"b\""}},
    {"\"a\"\"", {0}},
    {"\"a\"", {0}}, /* a second quote may come */
    {"(\")\")", {"(\")\")"}},
    {"(\"\"\")\")", {"(\"\"\")\")"}},
    {"(\"\\\")", {"(\"\\\")"}}, /* a backslash is a letter */
    {"(error \"a\\\")\")", {"(error \"a\\\")\")"}}, /* but in an error */
    {"(error \"a\\\\\")", {"(error \"a\\\\\")"}},
    {"(|)|)", {"(|)|)"}},
    {"|a b|c ", {"|a b|", "c"}},
    {"(|\"|)\"x\" ", {"(|\"|)", "\"x\""}},
    {"(\"|\")", {"(\"|\")"}},
    {"; sat\nunsat\n", {"; sat", "unsat"}}, /* nothing is passed over */
    {"; sat", {0}},
    {"(a ; )\n)", {"(a ; )\n)"}},
    {"(a ; \"\n)", {"(a ; \"\n)"}},
    {"(a \";\n\")", {"(a \";\n\")"}},
    {"a;b\n", {"a", ";b"}},
    {"\x01\xff\n", {"\x01\xff"}},
};
enum { ROWS = sizeof TABLE / sizeof TABLE[0] };

/* Whether the text falls into its items when it comes in pieces of `piece` bytes. */
static bool falls_apart(const struct row *row, size_t piece) {
    struct scan scan = {0};
    size_t length = strlen(row->text);
    size_t found = 0;
    for (size_t come = 0; come <= length; come += piece) {
        while (scan_item(&scan, (const uint8_t *)row->text, come)) {
            const char *item = found < MOST_ITEMS ? row->items[found] : NULL;
            if (item == NULL || scan.end - scan.start != strlen(item) || memcmp(row->text + scan.start, item, strlen(item)) != 0) {
                return false;
            }
            found++;
        }
    }
    return found == MOST_ITEMS || row->items[found] == NULL;
}

int main(void) {
    int failed = 0;
    for (size_t i = 0; i < ROWS; i++) {
        size_t length = strlen(TABLE[i].text);
        if (!falls_apart(&TABLE[i], 1) || !falls_apart(&TABLE[i], length > 0 ? length : 1)) {
            printf("FAILED: %s\n", TABLE[i].text);
            failed++;
        }
    }
    printf("%d passed, %d failed\n", ROWS - failed, failed);
    return failed != 0;
}
