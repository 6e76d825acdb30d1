/* The writer as C sees it, each call alike: its book byte by byte, its buffers, a book that is bad, full or damaged. */
#include "refused_books.h"

enum { BITS_PER_BYTE = 8 };

static struct records small;
static struct lent lent;

/* The number that a call answers on a book of these records. */
static uint32_t number_on(const struct growth_call *call, const struct records *r) {
    return (uint32_t)r->counts[call->section] + (call->section == CONTEXTS ? 1 : 0);
}

/* A call on a book of these records, and whether it wrote what it must. */
static int grows(const struct growth_call *call, const struct records *r, size_t room) {
    static struct records grown;
    static uint8_t before[ROOM_BOOK];
    grown = *r;
    call->grow(&grown);
    lend(&lent, r);
    memcpy(before, lent.book, sizeof before);
    lent.new_len = room;
    return has_grown(&lent, call->call(&lent), number_on(call, r), &grown) && memcmp(before, lent.book, sizeof before) == 0;
}

static size_t grown_length(const struct growth_call *call) {
    static struct records grown;
    static uint8_t book[ROOM_BOOK];
    grown = small;
    call->grow(&grown);
    return write_records(book, &grown);
}

static void buffer_tests(const struct growth_call *call) {
    size_t length = grown_length(call);
    const size_t too_short[] = {0, 1, length / 2, length - 1};
    expect(call->name, grows(call, &small, LESKOFAR_BOOK));
    expect(call->name, grows(call, &small, length));
    expect(call->name, grows(call, &small, length + 1));
    expect(call->name, grows(call, &small, sizeof lent.new_book));
    for (size_t i = 0; i < sizeof too_short / sizeof too_short[0]; i++) {
        lend(&lent, &small);
        lent.new_len = too_short[i];
        expect(call->name, was_refused(&lent, call->call(&lent), LESKOFAR_BUFFER_TOO_SHORT));
    }
    lend(&lent, &small);
    lent.scratch_len = sizeof lent.scratch;
    expect("a longer scratch is all zero", call->call(&lent).refusal == LESKOFAR_ACCEPTED && all_are(lent.scratch, sizeof lent.scratch, 0));
}

/* Whatever else is wrong with the call, the book received comes first. */
static void received_tests(const struct growth_call *call) {
    static struct records r;
    for (int i = 0; i < REFUSED_BOOK_COUNT; i++) {
        const struct refused_book *book = &REFUSED_BOOKS[i];
        r = small;
        book->lend(&lent, &r);
        expect(call->name, was_refused(&lent, call->call(&lent), book->refusal));
        lent.new_len = 0;
        memset(lent.scratch, FILL, sizeof lent.scratch);
        expect(call->name, was_refused(&lent, call->call(&lent), book->refusal));
    }
}

/* Adds records that say nothing until a section has so many; a node needs a term of its own. */
static void fill(struct records *r, int section, size_t count) {
    while (r->counts[section] < count) {
        switch (section) {
        case NAMES:
            ADD(r, NAMES, 0, 0);
            break;
        case CONSTANTS:
            ADD(r, CONSTANTS, X_NAME, INT_TYPE);
            break;
        case TERMS:
            ADD(r, TERMS, 0, 1);
            break;
        case CONTEXTS:
            ADD(r, TERMS, 0, 1);
            ADD(r, CONTEXTS, 0, (uint32_t)r->counts[TERMS] - 1, 0);
            break;
        default:
            ADD(r, LISTS, 0);
        }
    }
}

/* With just the room that a call needs in a section, and with one record less. */
static void section_tests(const struct growth_call *call, int section) {
    static struct records r;
    static struct records grown;
    grown = small;
    call->grow(&grown);
    size_t needed = grown.counts[section] - small.counts[section];
    r = small;
    fill(&r, section, MOST[section] - needed);
    expect(call->name, grows(call, &r, LESKOFAR_BOOK));
    if (needed > 0) {
        fill(&r, section, MOST[section] - needed + 1);
        lend(&lent, &r);
        expect(call->name, was_refused(&lent, call->call(&lent), LESKOFAR_COUNT_OVER_LIMIT));
    }
}

static void letter_tests(const struct growth_call *call) {
    static struct records r;
    static struct records grown;
    grown = small;
    call->grow(&grown);
    size_t needed = strlen(grown.letters) - strlen(small.letters);
    r = small;
    memset(r.letters + strlen(r.letters), 'a', MOST_LETTERS - needed - strlen(small.letters));
    expect(call->name, grows(call, &r, LESKOFAR_BOOK));
    if (needed > 0) {
        strcat(r.letters, "a");
        lend(&lent, &r);
        expect(call->name, was_refused(&lent, call->call(&lent), LESKOFAR_COUNT_OVER_LIMIT));
    }
}

static void full_tests(const struct growth_call *call) {
    static const int sections[] = {NAMES, CONSTANTS, TERMS, CONTEXTS, LISTS};
    for (size_t i = 0; i < sizeof sections / sizeof sections[0]; i++) {
        section_tests(call, sections[i]);
    }
    letter_tests(call);
}

static uint32_t number_of(const uint8_t *at) {
    uint32_t number = 0;
    for (int i = 0; i < NUMBER; i++) {
        number |= (uint32_t)at[i] << BITS_PER_BYTE * i;
    }
    return number;
}

/* Whether each section of the new book begins with the old one's bytes. */
static int keeps_records(size_t length) {
    for (int s = 0; s < SECTIONS; s++) {
        const uint8_t *old_pair = lent.book + 2 * NUMBER * s;
        const uint8_t *new_pair = lent.new_book + 2 * NUMBER * s;
        size_t size = s == 0 ? 1 : FIELDS[s - 1] * NUMBER;
        size_t count = number_of(old_pair + NUMBER);
        size_t new_start = number_of(new_pair);
        if (number_of(new_pair + NUMBER) < count || new_start + count * size > length ||
            memcmp(lent.book + number_of(old_pair), lent.new_book + new_start, count * size) != 0) {
            return 0;
        }
    }
    return 1;
}

/* The book with each bit turned: refused as the book test refuses it, grown into a good book that keeps all that was there, or refused. */
static void damage_tests(const struct growth_call *call) {
    size_t good_books = 0;
    int are_good = 1;
    lend(&lent, &small);
    size_t bits = lent.book_len * BITS_PER_BYTE;
    for (size_t bit = 0; bit < bits; bit++) {
        lend(&lent, &small);
        lent.book[bit / BITS_PER_BYTE] ^= (uint8_t)(1 << bit % BITS_PER_BYTE);
        uint32_t refusal = leskofar_book_test(lent.book, lent.book_len, lent.scratch, lent.scratch_len);
        memset(lent.scratch, FILL, sizeof lent.scratch);
        leskofar_appended answer = call->call(&lent);
        if (refusal != LESKOFAR_ACCEPTED) {
            are_good = are_good && was_refused(&lent, answer, refusal);
        } else if (answer.refusal == LESKOFAR_ACCEPTED) {
            good_books++;
            are_good = are_good && keeps_records(answer.length) &&
                       leskofar_book_test(lent.new_book, answer.length, lent.scratch, lent.scratch_len) == LESKOFAR_ACCEPTED;
        } else {
            are_good = are_good && was_refused(&lent, answer, answer.refusal);
        }
    }
    expect("damaged books", are_good);
    expect("some of them good", good_books > 0);
}

/* A book that is full but for a name, which has no letters: with it there is no larger one. */
static void largest_tests(void) {
    static struct records r;
    static struct records grown;
    r = small;
    memset(r.letters + strlen(r.letters), 'a', MOST_LETTERS - strlen(r.letters));
    for (int s = 0; s < NUMBERED; s++) {
        size_t count = s == NAMES ? MOST[s] - 1 : MOST[s];
        if (s == TYPES || s == FUNCTIONS || s == AXIOMS || s == PATTERNS) {
            r.counts[s] = count; /* all their fields are 0 */
        } else if (s != TERMS) {
            fill(&r, s, count);
        }
    }
    for (size_t axiom = 0; axiom < MOST[AXIOMS]; axiom++) {
        r.numbers[AXIOMS][axiom * FIELDS[AXIOMS]] = UINT32_MAX; /* no term */
    }
    fill(&r, TERMS, MOST[TERMS]);
    grown = r;
    add_name(&grown, "");
    for (size_t room = LESKOFAR_BOOK - 1; room <= LESKOFAR_BOOK + 1; room++) {
        lend(&lent, &r);
        lent.new_len = room;
        leskofar_appended answer = leskofar_append_name(BOOK(&lent), NULL, 0, NEW(&lent));
        expect("the largest book", room < LESKOFAR_BOOK ? was_refused(&lent, answer, LESKOFAR_BUFFER_TOO_SHORT)
                                                        : has_grown(&lent, answer, (uint32_t)MOST[NAMES] - 1, &grown) &&
                                                              answer.length == LESKOFAR_BOOK);
    }
}

/* NULL stands for every empty buffer. */
static void null_tests(void) {
    lend(&lent, &small);
    expect("nothing at all", leskofar_append_name(NULL, 0, NULL, 0, NULL, 0, NULL, 0).refusal == LESKOFAR_SHORT_SCRATCH);
    expect("no book", was_refused(&lent, leskofar_append_constant(NULL, 0, lent.scratch, lent.scratch_len, 0, 0, NEW(&lent)),
                                  LESKOFAR_BAD_CONTENTS));
    lend(&lent, &small);
    expect("no new book", was_refused(&lent, leskofar_append_name(BOOK(&lent), NULL, 0, NULL, 0), LESKOFAR_BUFFER_TOO_SHORT));
    lend(&lent, &small);
    expect("no lists", leskofar_append_term(BOOK(&lent), 4, LESS_NAME, 0, 0, 0, 0, 0, NULL, 0, NULL, 0, NEW(&lent)).number == SMALL_TERMS);
    lend(&lent, &small);
    expect("no trace", leskofar_record_trace_point(BOOK(&lent), 0, NULL, 0, NEW(&lent)).refusal == LESKOFAR_ACCEPTED);
}

int main(void) {
    small_records(&small);
    for (size_t i = 0; i < CALL_COUNT; i++) {
        buffer_tests(&CALLS[i]);
        received_tests(&CALLS[i]);
        full_tests(&CALLS[i]);
        damage_tests(&CALLS[i]);
    }
    largest_tests();
    null_tests();
    return close_tests();
}
