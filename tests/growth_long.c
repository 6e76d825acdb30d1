/*
 * Texts and lists whose lengths do not fit in 32 bits: refused 3 by their exact counts, before anything is laid out. Nobody reads them, so
 * pages that are never touched stand for them.
 */
#define _DEFAULT_SOURCE
#include "growth_calls.h"
#include <sys/mman.h>

/* As many letters, and the bytes of as many entries, as make a count of 32 bits begin anew at 0; then some more. */
static const size_t LETTERS_ROUND = (size_t)1 << 32;
static const size_t ENTRIES_ROUND = ((size_t)1 << 32) * NUMBER;
static const size_t MORE[] = {0, 1, MOST_LETTERS - 1};
enum { MORE_COUNT = sizeof MORE / sizeof MORE[0] };

static struct records small;
static struct lent lent;

static int refused(leskofar_appended answer, uint32_t refusal) {
    int was = was_refused(&lent, answer, refusal);
    lend(&lent, &small);
    return was;
}

static void letter_tests(const uint8_t *zeros) {
    for (int i = 0; i < MORE_COUNT; i++) {
        const size_t length = LETTERS_ROUND + MORE[i];
        const uint32_t three = LESKOFAR_COUNT_OVER_LIMIT;
        expect("a long name", refused(leskofar_append_name(BOOK(&lent), zeros, length, NEW(&lent)), three));
        expect("a long trace", refused(leskofar_extend(BOOK(&lent), NODE, FREE, 1, zeros, length, NEW(&lent)), three));
        expect("a long trace of a record", refused(leskofar_record(BOOK(&lent), NODE, FREE, INT_TYPE, 1, zeros, length, NEW(&lent)), three));
        expect("a long trace point", refused(leskofar_record_trace_point(BOOK(&lent), NODE, zeros, length, NEW(&lent)), three));
    }
}

static leskofar_appended append_term(uint32_t kind, const uint8_t *first, size_t first_len, const uint8_t *second, size_t second_len) {
    return leskofar_append_term(BOOK(&lent), kind, 0, 0, 0, 0, 0, 0, first, first_len, second, second_len, NEW(&lent));
}

static void list_tests(const uint8_t *zeros) {
    enum { BOOLEAN, BUILT_IN = 4, QUANTIFIER = 8 };
    for (int i = 0; i < MORE_COUNT; i++) {
        const size_t length = ENTRIES_ROUND + MORE[i] * NUMBER;
        const uint32_t three = LESKOFAR_COUNT_OVER_LIMIT;
        expect("long arguments", refused(append_term(BUILT_IN, zeros, length, NULL, 0), three));
        expect("long constants", refused(append_term(QUANTIFIER, zeros, length, NULL, 0), three));
        expect("long patterns", refused(append_term(QUANTIFIER, NULL, 0, zeros, length), three));
        expect("both that make a round",
               refused(append_term(QUANTIFIER, zeros, ENTRIES_ROUND / 2, zeros, length - ENTRIES_ROUND / 2), three));
        expect("a long list without a range", refused(append_term(BOOLEAN, zeros, length, NULL, 0), LESKOFAR_FIELD_OUT_OF_RANGE));
    }
}

int main(void) {
    const size_t most = ENTRIES_ROUND + MORE[MORE_COUNT - 1] * NUMBER;
    void *zeros = mmap(NULL, most, PROT_READ, MAP_PRIVATE | MAP_ANONYMOUS | MAP_NORESERVE, -1, 0);
    expect("pages for long texts", zeros != MAP_FAILED);
    if (zeros != MAP_FAILED) {
        small_records(&small);
        lend(&lent, &small);
        letter_tests(zeros);
        list_tests(zeros);
        expect("the pages given back", munmap(zeros, most) == 0);
    }
    return close_tests();
}
