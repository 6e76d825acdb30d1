#include "names.h"

#include "sentence.h"
#include "tokens.h"

#include <inttypes.h>
#include <string.h>

/* What a name is given to: records of three sections, each of which is declared, and two kinds of terms. */
enum role { ROLE_TYPE, ROLE_CONSTANT, ROLE_FUNCTION, ROLE_LITERAL, ROLE_OPERATOR };

/* Where the names of the first three stand. */
static const struct {
    enum section section;
    uint32_t name_field;
} DECLARED[] = {
    [ROLE_TYPE] = {SECTION_TYPES, TYPE_NAME},
    [ROLE_CONSTANT] = {SECTION_CONSTANTS, CONSTANT_NAME},
    [ROLE_FUNCTION] = {SECTION_FUNCTIONS, FUNCTION_NAME},
};

static const char *const ROLES[] = {
    [ROLE_TYPE] = "type",
    [ROLE_CONSTANT] = "constant",
    [ROLE_FUNCTION] = "function",
    [ROLE_LITERAL] = "the literal of term",
    [ROLE_OPERATOR] = "the operator of term",
};

/* How types are called: every solver has two of them, and a literal of these has a word for its type of its own. */
static const char BOOL_NAME[] = "Bool";
static const char INT_NAME[] = "Int";
static const char BOOL_IN_LITERAL[] = "bool";
static const char INT_IN_LITERAL[] = "int";

/* What stands between a literal's name and its type. */
enum { COLON = ':' };

/* A record with a name that the solver sees. A literal is sent as |name:type|. */
struct named {
    enum role role;
    uint32_t record;
    struct letters name;   /* as the book has it */
    struct letters symbol; /* without its bars, by which solvers tell names apart */
    uint32_t type;         /* of a literal */
    struct letters type_name;
};

enum { MOST_NAMED = BOOK_MOST_CONSTANTS + BOOK_MOST_FUNCTIONS + BOOK_MOST_TERMS };

/* The good names so far of a space in which no two may be the same. */
struct space {
    struct named at[MOST_NAMED];
    size_t count;
    struct bytes *complaint;
};

/* By the number that fields have for it, in which the built-in types come first. */
static void add_record(struct bytes *complaint, const struct named *named) {
    uint32_t number = named->role == ROLE_TYPE ? named->record + TYPE_FIRST_USER : named->record;
    sentence_add(complaint, "%s %" PRIu32, ROLES[named->role], number);
}

/* False, with the complaint about one name. */
static bool complain_of(struct bytes *complaint, const struct named *named, const char *fault) {
    add_record(complaint, named);
    sentence_add(complaint, " is called ");
    sentence_add_quoted(complaint, named->name);
    sentence_add(complaint, ", which %s", fault);
    return false;
}

/* False, with the complaint about a name and an earlier one. */
static bool complain_of_both(struct bytes *complaint, const struct named *named, const struct named *earlier) {
    add_record(complaint, named);
    sentence_add(complaint, " and ");
    add_record(complaint, earlier);
    sentence_add(complaint, " are both called ");
    sentence_add_name(complaint, named->symbol);
    if (named->role == ROLE_LITERAL) {
        sentence_add(complaint, "%c", COLON);
        sentence_add_name(complaint, named->type_name);
    }
    return false;
}

/* Whether the name of a type, constant or function has a meaning in SMT-LIB already. */
static bool is_taken(const struct named *named) {
    if (named->role == ROLE_TYPE) {
        return letters_are_same(named->symbol, letters_of(BOOL_NAME)) || letters_are_same(named->symbol, letters_of(INT_NAME));
    }
    return token_is_taken(named->symbol);
}

/* Of a type, constant or function, which the library sends as a symbol. */
static const char *fault_of_symbol(const struct named *named) {
    if (token_looks_like_negative_number(named->symbol)) {
        return "looks like a negative number";
    }
    return is_taken(named) ? "has a meaning of its own in SMT-LIB" : NULL;
}

/* Of an operator, which the library sends as it is. */
static const char *fault_of_operator(const struct named *named) {
    if (!token_is_symbol(named->name) && !token_is_number(named->name)) {
        return "is not one token of SMT-LIB";
    }
    return token_is_reserved(named->symbol) ? "is a reserved word of SMT-LIB" : NULL;
}

/* The first fault of a name by itself; NULL where it has none. A literal of a book that passes the book test has none. */
static const char *fault_of(const struct named *named) {
    switch (named->role) {
    case ROLE_LITERAL:
        return NULL;
    case ROLE_OPERATOR:
        return fault_of_operator(named);
    default:
        return fault_of_symbol(named);
    }
}

/* Whether a text is two others with a colon between them, as a literal's name and type stand. */
static bool is_joined(struct letters text, struct letters first, struct letters second) {
    return text.length == first.length + 1 + second.length && text.at[first.length] == COLON &&
           memcmp(text.at, first.at, first.length) == 0 && memcmp(text.at + first.length + 1, second.at, second.length) == 0;
}

/*
 * Whether two literals are sent alike, wherever the colon between name and type stands: a of b:c and a:b of c are both |a:b:c|. What the
 * longer name has more is then the begin of the other one's type.
 */
static bool are_sent_alike(const struct named *one, const struct named *other) {
    if (one->name.length == other->name.length) {
        return letters_are_same(one->name, other->name) && letters_are_same(one->type_name, other->type_name);
    }
    const struct named *shorter = one->name.length < other->name.length ? one : other;
    const struct named *longer = shorter == one ? other : one;
    size_t shared = shorter->name.length + 1;
    struct letters more = {longer->name.at + shared, longer->name.length - shared};
    return is_joined(longer->name, shorter->name, more) && is_joined(shorter->type_name, more, longer->type_name);
}

/* Two literals of one type are one literal where they have one name. Operators never clash with each other. */
static bool do_clash(const struct named *one, const struct named *other) {
    if (one->role == ROLE_LITERAL && other->role == ROLE_LITERAL) {
        return one->type != other->type && are_sent_alike(one, other);
    }
    if (one->role == ROLE_OPERATOR && other->role == ROLE_OPERATOR) {
        return false;
    }
    if (one->role == ROLE_LITERAL) {
        return is_joined(other->symbol, one->name, one->type_name);
    }
    if (other->role == ROLE_LITERAL) {
        return is_joined(one->symbol, other->name, other->type_name);
    }
    return letters_are_same(one->symbol, other->symbol);
}

/* Takes a name into its space; false after a complaint. */
static bool take(struct space *space, struct named named) {
    const char *fault = fault_of(&named);
    if (fault != NULL) {
        return complain_of(space->complaint, &named, fault);
    }
    for (size_t i = 0; i < space->count; i++) {
        if (do_clash(&named, &space->at[i])) {
            return complain_of_both(space->complaint, &named, &space->at[i]);
        }
    }
    space->at[space->count++] = named;
    return true;
}

static struct named named_at(const struct bytes *book, enum role role, enum section section, uint32_t record, uint32_t name_field) {
    struct letters name = book_name_at(book, section, record, name_field);
    return (struct named){.role = role, .record = record, .name = name, .symbol = token_symbol(name)};
}

static uint32_t declared_count(const struct bytes *book, enum role role) {
    return book_count(book, DECLARED[role].section);
}

static struct named declared_at(const struct bytes *book, enum role role, uint32_t record) {
    return named_at(book, role, DECLARED[role].section, record, DECLARED[role].name_field);
}

static bool take_declared(struct space *space, const struct bytes *book, enum role role) {
    bool is_good = true;
    for (uint32_t record = 0; record < declared_count(book, role) && is_good; record++) {
        is_good = take(space, declared_at(book, role, record));
    }
    return is_good;
}

static struct letters type_in_literal(const struct bytes *book, uint32_t type) {
    switch (type) {
    case TYPE_BOOL:
        return letters_of(BOOL_IN_LITERAL);
    case TYPE_INT:
        return letters_of(INT_IN_LITERAL);
    default:
        return book_name_at(book, SECTION_TYPES, type - TYPE_FIRST_USER, TYPE_NAME);
    }
}

static bool take_literal(struct space *space, const struct bytes *book, uint32_t term) {
    struct named literal = named_at(book, ROLE_LITERAL, SECTION_TERMS, term, LITERAL_NAME);
    literal.type = book_term_field(book, term, LITERAL_TYPE);
    literal.type_name = type_in_literal(book, literal.type);
    return take(space, literal);
}

static bool take_terms(struct space *space, const struct bytes *book) {
    uint32_t count = book_count(book, SECTION_TERMS);
    bool is_good = true;
    for (uint32_t term = 0; term < count && is_good; term++) {
        enum term_kind kind = book_term_kind(book, term);
        if (kind == TERM_BUILT_IN) {
            is_good = take(space, named_at(book, ROLE_OPERATOR, SECTION_TERMS, term, APPLIED));
        } else if (kind == TERM_LITERAL && !book_is_tag(book, term)) {
            is_good = take_literal(space, book, term);
        }
    }
    return is_good;
}

bool names_check(const struct bytes *book, struct bytes *complaint) {
    struct space space;
    space.complaint = complaint;
    space.count = 0;
    if (!take_declared(&space, book, ROLE_TYPE)) {
        return false;
    }
    /* Types have a space of their own. */
    space.count = 0;
    return take_declared(&space, book, ROLE_CONSTANT) && take_declared(&space, book, ROLE_FUNCTION) && take_terms(&space, book);
}

static bool is_free_for_z3(const struct named *named, struct bytes *complaint) {
    return !token_is_general_word(named->symbol) ||
           complain_of(complaint, named, "is a reserved word of SMT-LIB: z3 takes such words for its own, even between bars");
}

static bool are_free_for_z3(const struct bytes *book, enum role role, struct bytes *complaint) {
    bool is_good = true;
    for (uint32_t record = 0; record < declared_count(book, role) && is_good; record++) {
        struct named named = declared_at(book, role, record);
        is_good = is_free_for_z3(&named, complaint);
    }
    return is_good;
}

bool names_check_for_z3(const struct bytes *book, struct bytes *complaint) {
    return are_free_for_z3(book, ROLE_TYPE, complaint) && are_free_for_z3(book, ROLE_CONSTANT, complaint) &&
           are_free_for_z3(book, ROLE_FUNCTION, complaint);
}
