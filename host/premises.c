#include "premises.h"

#include "book_view.h"

bool premises_begin(struct premises_known *known, const struct bytes *book) {
    *known = (struct premises_known){0};
    uint32_t count = book_count(book, SECTION_TERMS);
    for (uint32_t term = 0; term < count; term++) {
        if (book_term_kind(book, term) == TERM_BOOLEAN && book_term_field(book, term, BOOLEAN_VALUE) == 0) {
            known->false_term = term;
            return true;
        }
    }
    return false;
}

static enum premises what_follows(const struct result *result) {
    switch (result->verdict) {
    case VERDICT_PROVED:
        return PREMISES_CONTRADICT;
    case VERDICT_SAT:
        return PREMISES_AGREE;
    case VERDICT_UNKNOWN:
    case VERDICT_FAILED:
    case VERDICT_REFUSED:
    case VERDICT_UNASKED:
        break;
    }
    return PREMISES_UNKNOWN;
}

enum premises premises_at(struct premises_known *known, struct prover *prover, uint32_t node, struct result *result) {
    if (node > PREMISES_MOST_NODES) {
        return PREMISES_UNKNOWN; /* no book has it, and the question itself is refused */
    }
    if (known->at[node] == PREMISES_UNASKED) {
        *result = prover_ask(prover, &(struct question){node, known->false_term});
        known->at[node] = what_follows(result);
    }
    return known->at[node];
}
