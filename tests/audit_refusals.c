/* The refusals of audits: their order, by every set of faults at once; lists of questions of every length; and the literal %tag. */
#include "audit_book.h"

/* Faults of what an audit is given, in the order of their refusals. Each can be there beside all others. */
enum fault {
    SHORT_SCRATCH,
    CUT_BOOK,
    MANY_TYPES,
    LONG_SCRIPT,
    BAD_TYPE,
    TERM_TWICE,
    DEEP_NODE,
    EMPTY_NAME,
    OUTSIDE,
    LOST_QUESTION,
    TAG,
    FOREIGN,
    OTHER_CHECKS,
    FAULTS
};

static const uint32_t refusal_of[FAULTS + 1] = {
    [SHORT_SCRATCH] = LESKOFAR_SHORT_SCRATCH,
    [CUT_BOOK] = LESKOFAR_BAD_CONTENTS,
    [MANY_TYPES] = LESKOFAR_COUNT_OVER_LIMIT,
    [LONG_SCRIPT] = LESKOFAR_COUNT_OVER_LIMIT,
    [BAD_TYPE] = LESKOFAR_FIELD_OUT_OF_RANGE,
    [TERM_TWICE] = LESKOFAR_NO_FOREST,
    [DEEP_NODE] = LESKOFAR_TOO_DEEP,
    [EMPTY_NAME] = LESKOFAR_BAD_NAME,
    [OUTSIDE] = LESKOFAR_NOT_IN_BOOK,
    [LOST_QUESTION] = LESKOFAR_MISSING_AXIOM,
    [TAG] = LESKOFAR_TAG_IN_BOOK,
    [FOREIGN] = LESKOFAR_FOREIGN_LINE,
    [OTHER_CHECKS] = LESKOFAR_CHECKS_DIFFER,
    [FAULTS] = LESKOFAR_ACCEPTED,
};

enum { SETS = 1 << FAULTS };

static int has(unsigned set, enum fault fault) {
    return (set >> fault & 1) != 0;
}

/* A row of nodes below each other, the last one deeper than a node may be. */
static void add_deep_node(struct records *r) {
    uint32_t above = ROOT;
    for (int depth = 0; depth <= MOST_DEPTH; depth++) {
        ADD(r, CONTEXTS, above, (uint32_t)r->counts[TERMS]);
        ADD(r, TERMS, BOOLEAN, 1);
        above = (uint32_t)r->counts[CONTEXTS];
    }
}

static void lay_faulty_book(unsigned set) {
    small_records(&records);
    if (has(set, TAG)) {
        add_name(&records, "%tag");
        ADD(&records, TERMS, LITERAL, (uint32_t)records.counts[NAMES] - 1, INT);
    }
    if (has(set, BAD_TYPE)) {
        ADD(&records, CONSTANTS, CONSTANT_NAME, (uint32_t)(USER_TYPE + MOST[TYPES] + 1));
    }
    if (has(set, TERM_TWICE)) {
        ADD(&records, CONTEXTS, ROOT, CONSTANT_TERM);
    }
    if (has(set, DEEP_NODE)) {
        add_deep_node(&records);
    }
    if (has(set, EMPTY_NAME)) {
        add_name(&records, "");
        ADD(&records, CONSTANTS, (uint32_t)records.counts[NAMES] - 1, INT);
    }
    while (has(set, MANY_TYPES) && records.counts[TYPES] <= MOST[TYPES]) {
        ADD(&records, TYPES, TYPE_NAME);
    }
    lay_book(&records);
    desk.book_len -= has(set, CUT_BOOK) ? 1 : 0;
    desk.scratch_len -= has(set, SHORT_SCRATCH) ? 1 : 0;
}

/* Lines that change nothing, up to a script of just this length. */
static void fill_script(size_t length) {
    static const char line[] = "(get-model)\n";
    static const char joins[] = "(assert ";
    while (desk.script_len + 2 * strlen(line) < length) {
        add_text(line);
    }
    add_text(joins);
    while (desk.script_len + 2 < length) {
        add_text("x");
    }
    add_text(")\n");
}

/*
 * Questions, and a check-sat for each: the refusals 7 and 9 come before it is looked at what is live there. Two are good, so that some
 * check-sat is left where there is one less.
 */
static void lay_faulty_script(unsigned set, const char *goal, int has_less) {
    if (has(set, LOST_QUESTION)) {
        add_question(LOST_NODE, TRUE_GOAL);
    }
    add_question(ROOT, TRUE_GOAL);
    add_question(ROOT, TRUE_GOAL);
    if (has(set, OUTSIDE)) {
        add_question(ROOT, UINT32_MAX);
    }
    size_t checks = desk.questions_len / QUESTION;
    if (has(set, OTHER_CHECKS)) {
        checks = has_less ? checks - 1 : checks + 1;
    }
    add_text(goal);
    add_times(checks, CHECK);
    if (has(set, FOREIGN)) {
        add_text("(check-sat )\n");
    }
    if (has(set, LONG_SCRIPT)) {
        fill_script(LESKOFAR_SCRIPT_MOST + 1);
    }
}

static enum fault first_of(unsigned set) {
    enum fault fault = 0;
    while (fault < FAULTS && !has(set, fault)) {
        fault++;
    }
    return fault;
}

/* Every set of faults beside a script that is right and one that would be rejected, and with a check-sat more and one less. */
static void order_tests(void) {
    static const struct {
        const char *name;
        const char *goal;
        uint32_t differs;
        int has_less;
    } manners[] = {{"every set of faults, one check-sat more", OF_TRUE, 0, 0},
                   {"every set of faults, one check-sat less", OF_TRUE, 0, 1},
                   {"beside a rejection, one check-sat more", OF_OTHER, 1, 0},
                   {"beside a rejection, one check-sat less", OF_OTHER, 1, 1}};
    for (size_t i = 0; i < sizeof manners / sizeof manners[0]; i++) {
        int are_good = 1;
        for (unsigned set = 0; set < SETS; set++) {
            uint32_t refusal = refusal_of[first_of(set)];
            lay_faulty_book(set);
            lay_faulty_script(set, manners[i].goal, manners[i].has_less);
            are_good = are_good && is_answer(refusal, refusal == LESKOFAR_ACCEPTED ? manners[i].differs : 0);
        }
        expect(manners[i].name, are_good);
    }
}

/* Scratches of many lengths, and what is answered with one that is long enough. */
static void scratch_tests(void) {
    static const size_t lengths[] = {0,
                                     1,
                                     LESKOFAR_SCRATCH / 2,
                                     LESKOFAR_SCRATCH - 1,
                                     LESKOFAR_SCRATCH,
                                     LESKOFAR_SCRATCH + 1,
                                     ROOM_SCRATCH / 2,
                                     ROOM_SCRATCH - 1,
                                     ROOM_SCRATCH};
    static const struct {
        uint32_t node;
        const char *script;
        uint32_t refusal;
        uint32_t differs;
    } calls[] = {{ROOT, OF_TRUE CHECK, LESKOFAR_ACCEPTED, 0},
                 {ROOT, OF_OTHER CHECK, LESKOFAR_ACCEPTED, 1},
                 {LAST_NODE + 1, OF_TRUE CHECK, LESKOFAR_NOT_IN_BOOK, 0},
                 {LOST_NODE, OF_TRUE CHECK, LESKOFAR_MISSING_AXIOM, 0},
                 {ROOT, "(check-sat )\n", LESKOFAR_FOREIGN_LINE, 0},
                 {ROOT, OF_TRUE, LESKOFAR_CHECKS_DIFFER, 0}};
    int are_good = 1;
    set_up();
    for (size_t i = 0; i < sizeof lengths / sizeof lengths[0]; i++) {
        desk.scratch_len = lengths[i];
        for (size_t call = 0; call < sizeof calls / sizeof calls[0]; call++) {
            ask_one(calls[call].node, TRUE_GOAL);
            put_text(calls[call].script);
            are_good = are_good && (lengths[i] < LESKOFAR_SCRATCH ? refuses(LESKOFAR_SHORT_SCRATCH)
                                                                  : is_answer(calls[call].refusal, calls[call].differs));
        }
    }
    expect("scratches of many lengths", are_good);
}

/* The length of a script, around the most. */
static void length_tests(void) {
    static const size_t most = LESKOFAR_SCRIPT_MOST;
    small_records(&records);
    for (size_t length = most - 2; length <= most + 2; length++) {
        lay_book(&records);
        ask_one(ROOT, TRUE_GOAL);
        put_text(OF_TRUE CHECK);
        fill_script(length);
        expect("a script of a length", desk.script_len == length && (length <= most ? accepts() : refuses(LESKOFAR_COUNT_OVER_LIMIT)));
    }
}

/* A 7 anywhere beats a 9 before it, and a 9 anywhere what comes behind. */
static void list_tests(void) {
    /* Some would be inside if only their lower bytes were read, or their bytes the other way round. */
    static const uint32_t outside[][2] = {
        {1 << 8, TRUE_GOAL}, {1 << 16, TRUE_GOAL},       {1 << 24, TRUE_GOAL},  {ROOT, 1 << 8},          {ROOT, 1 << 16},
        {ROOT, 1 << 24},     {LAST_NODE + 1, TRUE_GOAL}, {ROOT, LAST_TERM + 1}, {UINT32_MAX, TRUE_GOAL}, {ROOT, UINT32_MAX}};
    set_up();
    add_question(ROOT, TRUE_GOAL);
    add_question(ROOT, LOST_TERM);
    expect("a goal that is lost", refuses(LESKOFAR_MISSING_AXIOM));
    for (size_t i = 0; i < sizeof outside / sizeof outside[0]; i++) {
        desk.questions_len = 0;
        add_question(LOST_NODE, TRUE_GOAL);
        add_question(outside[i][0], outside[i][1]);
        expect("outside behind a lost node", refuses(LESKOFAR_NOT_IN_BOOK));
        ask_one(outside[i][0], outside[i][1]);
        add_question(ROOT, LOST_TERM);
        expect("outside before a lost goal", refuses(LESKOFAR_NOT_IN_BOOK));
    }
    ask_one(LAST_NODE, LAST_TERM);
    expect("the last node, which is lost", refuses(LESKOFAR_MISSING_AXIOM));
    ask_one(LITERAL_NODE, LAST_TERM);
    expect("the last goal", refuses(LESKOFAR_CHECKS_DIFFER));
}

/* Lists of zeros of every length, which are good questions where they are whole. */
static void cut_tests(void) {
    enum { MANY = 3 };
    int are_good = 1;
    set_up();
    memset(desk.questions.at, 0, sizeof desk.questions.at);
    for (size_t length = 0; length <= MANY * QUESTION; length++) {
        desk.questions_len = length;
        put_text("");
        add_times(length / QUESTION, CHECK);
        uint32_t differs = length < QUESTION ? 0 : 1;
        are_good = are_good && (length % QUESTION == 0 ? rejects_at(differs) : refuses(LESKOFAR_NOT_IN_BOOK));
    }
    expect("lists of questions of every length", are_good);
    ask_one(LOST_NODE, TRUE_GOAL);
    desk.questions_len += 1;
    expect("a question cut short behind a lost node", refuses(LESKOFAR_NOT_IN_BOOK));
    ask_one(ROOT, TRUE_GOAL);
    desk.questions_len -= 1;
    expect("a goal cut short", refuses(LESKOFAR_NOT_IN_BOOK));
    desk.questions_len = 0;
    while (desk.questions_len < ROOM_QUESTIONS) {
        add_question(ROOT, TRUE_GOAL);
    }
    put_text(OF_TRUE CHECK);
    expect("more questions than any script has", refuses(LESKOFAR_CHECKS_DIFFER));
    put_number(desk.questions.at + ROOM_QUESTIONS - NUMBER, LAST_TERM + 1);
    expect("the last of them outside", refuses(LESKOFAR_NOT_IN_BOOK));
}

/* %tag as a name of everything but a literal, and as a literal that nobody uses. */
static void tag_tests(void) {
    static const char *const near[] = {"%ta", "%tag%", "tag", "%tags", "%Tag", "|%tag|", ""};
    small_records(&records);
    add_name(&records, "%tag");
    uint32_t tag = (uint32_t)records.counts[NAMES] - 1;
    ADD(&records, TYPES, tag);
    ADD(&records, CONSTANTS, tag, INT);
    ADD(&records, FUNCTIONS, tag, INT);
    ADD(&records, TERMS, BUILT_IN, tag);
    ADD(&records, TERMS, ID, (uint32_t)records.counts[CONSTANTS] - 1);
    ADD(&records, CONTEXTS, ROOT, (uint32_t)records.counts[TERMS] - 1, tag + 1);
    lay_book(&records);
    put_own(TWICE_NODE, TRUE_GOAL);
    expect("%tag that is no literal", accepts());
    ADD(&records, TERMS, LITERAL, tag, BOOL);
    lay_book(&records);
    put_own(TWICE_NODE, TRUE_GOAL);
    expect("a literal %tag that nobody uses", refuses(LESKOFAR_TAG_IN_BOOK));
    for (size_t i = 0; i < sizeof near / sizeof near[0]; i++) {
        small_records(&records);
        add_name(&records, near[i]);
        ADD(&records, TERMS, LITERAL, (uint32_t)records.counts[NAMES] - 1, BOOL);
        lay_book(&records);
        put_own(TWICE_NODE, TRUE_GOAL);
        expect("a literal that is nearly %tag", strchr(near[i], '|') == NULL ? accepts() : refuses(LESKOFAR_BAD_NAME));
    }
}

int main(void) {
    order_tests();
    scratch_tests();
    length_tests();
    list_tests();
    cut_tests();
    tag_tests();
    expect("what each call has left", are_left_well);
    return close_tests();
}
