#include "sorts.h"

#include "sentence.h"
#include "signatures.h"

#include <inttypes.h>

/* A book with the sort of each of its terms. */
struct sorted {
    const struct bytes *book;
    uint32_t sorts[BOOK_MOST_TERMS];
    struct bytes *complaint;
};

/* An application's arguments, and what it applies in words. */
struct application {
    uint32_t term;
    struct letters applied;
    uint32_t first; /* of its list entries */
    uint32_t count;
};

static uint32_t field(const struct sorted *book, uint32_t term, enum term_field at) {
    return book_term_field(book->book, term, at);
}

static uint32_t sort_at(const struct sorted *book, uint32_t term, enum term_field at) {
    return book->sorts[field(book, term, at)];
}

static const struct signature *signature_at(const struct sorted *book, uint32_t term) {
    return signature_of(book_name_at(book->book, SECTION_TERMS, term, APPLIED));
}

static uint32_t constant_type(const struct sorted *book, uint32_t constant) {
    return book_field(book->book, SECTION_CONSTANTS, constant, CONSTANT_TYPE);
}

/* The sort of a term whose children have theirs, whether they fit or not. */
static uint32_t sort_of(const struct sorted *book, uint32_t term) {
    const struct signature *signature;
    uint32_t sort;
    switch (book_term_kind(book->book, term)) {
    case TERM_INTEGER:
        return TYPE_INT;
    case TERM_LITERAL:
        return book_is_tag(book->book, term) ? TYPE_INT : field(book, term, LITERAL_TYPE);
    case TERM_ID:
        return constant_type(book, field(book, term, ID_CONSTANT));
    case TERM_BUILT_IN:
        signature = signature_at(book, term);
        return signature == NULL ? SORT_ANY : signature->gives;
    case TERM_FUNCTION:
        return book_field(book->book, SECTION_FUNCTIONS, field(book, term, APPLIED), FUNCTION_RESULT);
    case TERM_IF_THEN_ELSE:
        sort = sort_at(book, term, ITE_THEN);
        return sort != SORT_ANY ? sort : sort_at(book, term, ITE_ELSE);
    case TERM_LET:
        return sort_at(book, term, LET_BODY);
    case TERM_BOOLEAN:
    case TERM_QUANTIFIER:
        break;
    }
    return TYPE_BOOL;
}

/* Children have smaller numbers than their parents, so one way up finds all sorts. */
static void find_sorts(struct sorted *book) {
    uint32_t count = book_count(book->book, SECTION_TERMS);
    for (uint32_t term = 0; term < count; term++) {
        book->sorts[term] = sort_of(book, term);
    }
}

static bool agree(uint32_t one, uint32_t other) {
    return one == SORT_ANY || other == SORT_ANY || one == other;
}

static void add_sort(const struct sorted *book, uint32_t sort) {
    switch (sort) {
    case TYPE_BOOL:
        sentence_add(book->complaint, "Bool");
        break;
    case TYPE_INT:
        sentence_add(book->complaint, "Int");
        break;
    default:
        sentence_add_name(book->complaint, book_name_at(book->book, SECTION_TYPES, sort - TYPE_FIRST_USER, TYPE_NAME));
    }
}

/* Ends a complaint that has said what it is about. */
static bool add_wanted(const struct sorted *book, uint32_t wanted, uint32_t found) {
    sentence_add(book->complaint, " must be ");
    add_sort(book, wanted);
    sentence_add(book->complaint, ", found ");
    add_sort(book, found);
    return false;
}

/* Whether what is called `what` has the wanted sort; false after a complaint. */
static bool has_sort(const struct sorted *book, uint32_t term, const char *what, uint32_t wanted, uint32_t found) {
    if (agree(wanted, found)) {
        return true;
    }
    sentence_add(book->complaint, "term %" PRIu32 ": %s", term, what);
    return add_wanted(book, wanted, found);
}

static struct application application_at(const struct sorted *book, uint32_t term, struct letters applied) {
    return (struct application){term, applied, field(book, term, ARGUMENTS), field(book, term, ARGUMENT_COUNT)};
}

/* How many arguments there must be, in words. */
static void add_number(struct bytes *complaint, uint32_t least, uint32_t most) {
    const char *more = most > least ? " or more" : "";
    const char *plural = most == 1 ? "" : "s";
    sentence_add(complaint, " takes %" PRIu32 "%s argument%s", least, more, plural);
}

static bool has_number(const struct sorted *book, const struct application *application, uint32_t least, uint32_t most) {
    if (application->count >= least && application->count <= most) {
        return true;
    }
    sentence_add(book->complaint, "term %" PRIu32 ": ", application->term);
    sentence_add_name(book->complaint, application->applied);
    add_number(book->complaint, least, most);
    sentence_add(book->complaint, ", found %" PRIu32, application->count);
    return false;
}

static uint32_t argument_sort(const struct sorted *book, const struct application *application, uint32_t argument) {
    return book->sorts[book_entry(book->book, application->first + argument)];
}

static bool has_argument(const struct sorted *book, const struct application *application, uint32_t argument, uint32_t wanted) {
    uint32_t found = argument_sort(book, application, argument);
    if (agree(wanted, found)) {
        return true;
    }
    sentence_add(book->complaint, "term %" PRIu32 ": argument %" PRIu32 " of ", application->term, argument + 1);
    sentence_add_name(book->complaint, application->applied);
    return add_wanted(book, wanted, found);
}

static bool check_built_in(const struct sorted *book, uint32_t term) {
    const struct signature *signature = signature_at(book, term);
    if (signature == NULL) {
        return true;
    }
    struct application application = application_at(book, term, book_name_at(book->book, SECTION_TERMS, term, APPLIED));
    if (!has_number(book, &application, signature->least, signature->most)) {
        return false;
    }
    uint32_t wanted = signature->takes;
    for (uint32_t argument = 0; argument < application.count; argument++) {
        if (!has_argument(book, &application, argument, wanted)) {
            return false;
        }
        /* Where all must have one sort, the first that is known says which. */
        wanted = wanted == SORT_ANY ? argument_sort(book, &application, argument) : wanted;
    }
    return true;
}

static bool check_function(const struct sorted *book, uint32_t term) {
    uint32_t function = field(book, term, APPLIED);
    struct application application = application_at(book, term, book_name_at(book->book, SECTION_FUNCTIONS, function, FUNCTION_NAME));
    uint32_t inputs = book_field(book->book, SECTION_FUNCTIONS, function, FUNCTION_INPUTS);
    uint32_t count = book_field(book->book, SECTION_FUNCTIONS, function, FUNCTION_INPUT_COUNT);
    bool is_good = has_number(book, &application, count, count);
    for (uint32_t argument = 0; argument < count && is_good; argument++) {
        is_good = has_argument(book, &application, argument, book_entry(book->book, inputs + argument));
    }
    return is_good;
}

static bool check_if_then_else(const struct sorted *book, uint32_t term) {
    return has_sort(book, term, "the condition of ite", TYPE_BOOL, sort_at(book, term, ITE_GUARD)) &&
           has_sort(book, term, "the second branch of ite", sort_at(book, term, ITE_THEN), sort_at(book, term, ITE_ELSE));
}

static bool check_let(const struct sorted *book, uint32_t term) {
    uint32_t wanted = constant_type(book, field(book, term, LET_CONSTANT));
    return has_sort(book, term, "the value in let", wanted, sort_at(book, term, LET_VALUE));
}

static bool check_literal(const struct sorted *book, uint32_t term) {
    return !book_is_tag(book->book, term) || has_sort(book, term, "the type of %tag", TYPE_INT, field(book, term, LITERAL_TYPE));
}

static bool check_quantifier(const struct sorted *book, uint32_t term) {
    bool is_forall = field(book, term, QUANTIFIER_IS_FORALL) == 1;
    const char *body = is_forall ? "the body of forall" : "the body of exists";
    return has_sort(book, term, body, TYPE_BOOL, sort_at(book, term, QUANTIFIER_BODY));
}

static bool check_term(const struct sorted *book, uint32_t term) {
    switch (book_term_kind(book->book, term)) {
    case TERM_LITERAL:
        return check_literal(book, term);
    case TERM_BUILT_IN:
        return check_built_in(book, term);
    case TERM_FUNCTION:
        return check_function(book, term);
    case TERM_IF_THEN_ELSE:
        return check_if_then_else(book, term);
    case TERM_LET:
        return check_let(book, term);
    case TERM_QUANTIFIER:
        return check_quantifier(book, term);
    case TERM_BOOLEAN:
    case TERM_INTEGER:
    case TERM_ID:
        break;
    }
    return true;
}

static bool check_terms(const struct sorted *book) {
    uint32_t count = book_count(book->book, SECTION_TERMS);
    for (uint32_t term = 0; term < count; term++) {
        if (!check_term(book, term)) {
            return false;
        }
    }
    return true;
}

/* The terms of axioms, or of nodes: each says something that holds. The first record has the number `first`. */
static bool check_premises(const struct sorted *book, enum section section, uint32_t term_field, const char *what, uint32_t first) {
    uint32_t count = book_count(book->book, section);
    for (uint32_t record = 0; record < count; record++) {
        uint32_t term = book_field(book->book, section, record, term_field);
        if (term != BOOK_NO_TERM && !agree(TYPE_BOOL, book->sorts[term])) {
            sentence_add(book->complaint, "%s %" PRIu32 ": its term %" PRIu32, what, record + first, term);
            return add_wanted(book, TYPE_BOOL, book->sorts[term]);
        }
    }
    return true;
}

bool sorts_check(const struct bytes *book, struct bytes *complaint) {
    struct sorted sorted;
    sorted.book = book;
    sorted.complaint = complaint;
    find_sorts(&sorted);
    return check_terms(&sorted) && check_premises(&sorted, SECTION_AXIOMS, AXIOM_TERM, "axiom", 0) &&
           check_premises(&sorted, SECTION_CONTEXTS, CONTEXT_TERM, "node", 1);
}

bool sorts_is_truth(const struct bytes *book, uint32_t term) {
    struct sorted sorted;
    sorted.book = book;
    sorted.complaint = NULL;
    find_sorts(&sorted);
    return agree(TYPE_BOOL, sorted.sorts[term]);
}
