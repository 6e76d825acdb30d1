/* Audits at their limits: the deepest book, as many lines of a kind as a script has room for, and the longest texts. */
#include "audit_book.h"

/* A number that a byte does not hold. */
enum { BYTE = 256 };

/* Cuts these bytes out of the script, at the first place from this one on that has them. False where there is none. */
static int cut(const char *text, size_t from) {
    size_t length = strlen(text);
    for (size_t i = from; i + length <= desk.script_len; i++) {
        if (memcmp(desk.script.at + i, text, length) == 0) {
            memmove(desk.script.at + i, desk.script.at + i + length, desk.script_len - i - length);
            desk.script_len -= length;
            return 1;
        }
    }
    return 0;
}

/* The whole script behind another text. */
static void put_before(const char *text) {
    memmove(desk.script.at + strlen(text), desk.script.at, desk.script_len);
    memcpy(desk.script.at, text, strlen(text));
    desk.script_len += strlen(text);
}

/* Nodes below each other, as deep as they may be. */
static void depth_tests(void) {
    small_records(&records);
    for (uint32_t depth = 0; depth < MOST_DEPTH; depth++) {
        ADD(&records, CONTEXTS, depth == 0 ? ROOT : (uint32_t)records.counts[CONTEXTS], (uint32_t)records.counts[TERMS]);
        ADD(&records, TERMS, BOOLEAN, 1);
    }
    const uint32_t last = (uint32_t)records.counts[CONTEXTS];
    lay_book(&records);
    put_own(last, TRUE_GOAL);
    expect("400 levels", accepts());
    put_before("(push 1)\n(pop 1)\n");
    expect("400 levels behind an empty one", accepts());
    put_before("(assert true)\n");
    expect("400 levels and a line at the first", rejects_at(1));
    put_own(last, TRUE_GOAL);
    put_before("(push 1)\n");
    expect("400 levels and one", rejects_at(1));
    put_own(last, TRUE_GOAL);
    expect("399 levels", cut("(push 1)\n(assert true)\n", 0) && rejects_at(1));
    put_own(last, TRUE_GOAL);
    expect("two of 400 in one", cut("(push 1)\n", desk.script_len / 2) && rejects_at(1));
    put_own(last, TRUE_GOAL);
    ask_one(last - 1, TRUE_GOAL);
    expect("400 levels for the node above", rejects_at(1));
    put_own(last - 1, TRUE_GOAL);
    ask_one(last, TRUE_GOAL);
    expect("the node above for 400 levels", rejects_at(1));
    ask_one(ROOT, TRUE_GOAL);
    put_text("");
    add_times(BYTE, "(push 1)\n");
    add_text(OF_TRUE CHECK);
    expect("256 levels too many", rejects_at(1));
}

/* As many pushes as a script has room for. */
static void push_tests(void) {
    enum { PUSHES = 7281 };
    static const char level[] = "(push 1)\n(pop 1)\n";
    set_up();
    add_times(PUSHES, "(push 1)\n");
    expect("7,281 pushes", desk.script_len <= LESKOFAR_SCRIPT_MOST && accepts());
    add_text("(pop 1)");
    expect("7,281 pushes and a rest", desk.script_len == LESKOFAR_SCRIPT_MOST && refuses(LESKOFAR_FOREIGN_LINE));
    put_text("");
    add_times(LESKOFAR_SCRIPT_MOST / strlen(level), level);
    expect("as many levels that are popped", accepts());
    ask_one(ROOT, TRUE_GOAL);
    put_text("");
    add_times(PUSHES - 1, "(push 1)\n");
    add_text(CHECK);
    expect("7,280 pushes and a check-sat", rejects_at(1));
}

/* As many check-sats. */
static void check_tests(void) {
    enum { CHECKS = 5461 };
    set_up();
    add_times(CHECKS, CHECK);
    expect("5,461 check-sats without questions", refuses(LESKOFAR_CHECKS_DIFFER));
    for (size_t i = 1; i < CHECKS; i++) {
        add_question(ROOT, TRUE_GOAL);
    }
    expect("5,461 check-sats and 5,460 questions", refuses(LESKOFAR_CHECKS_DIFFER));
    add_question(ROOT, TRUE_GOAL);
    expect("5,461 check-sats and questions", rejects_at(1));
    add_question(ROOT, TRUE_GOAL);
    expect("5,461 check-sats and 5,462 questions", refuses(LESKOFAR_CHECKS_DIFFER));
}

/* As many equal lines in one level. */
static void equal_tests(void) {
    enum { EQUAL = 6000 };
    static const char equal[] = "(assert )\n";
    set_up();
    ask_one(ROOT, TRUE_GOAL);
    put_text("(push 1)\n(push 1)\n");
    add_times(EQUAL, equal);
    add_text("(assert (not true))\n" CHECK);
    expect("a level of 6,000 equal lines and ours", rejects_at(1));
    put_text("");
    add_times(EQUAL, equal);
    add_text(OF_TRUE CHECK);
    expect("6,000 equal lines at the first level", rejects_at(1));
    put_text("(push 1)\n");
    add_times(EQUAL, equal);
    add_text(POP OF_TRUE CHECK);
    expect("6,000 equal lines that are popped", accepts());
}

/* One question, again and again: the last of them is told as well as the first. */
static void repeat_tests(void) {
    enum { MOST_CHECKS = (LESKOFAR_SCRIPT_MOST - sizeof OF_TRUE + 1) / (sizeof CHECK - 1) };
    set_up();
    put_text(OF_TRUE);
    add_times(MOST_CHECKS, CHECK);
    for (size_t i = 0; i < MOST_CHECKS; i++) {
        add_question(ROOT, TRUE_GOAL);
    }
    expect("one question again and again", accepts());
    put_number(desk.questions.at + desk.questions_len - NUMBER, OTHER_GOAL);
    expect("the last of them differs", rejects_at(MOST_CHECKS));
    put_number(desk.questions.at + desk.questions_len - NUMBER - QUESTION, OTHER_GOAL);
    expect("the last two of them differ", rejects_at(MOST_CHECKS - 1));
}

/* The lines of a part of the script, the last one first. */
static void reverse_lines(size_t from, size_t to) {
    static uint8_t turned[ROOM_SCRIPT];
    size_t at = 0;
    for (size_t end = to; end > from;) {
        size_t start = end - 1;
        while (start > from && desk.script.at[start - 1] != '\n') {
            start--;
        }
        memcpy(turned + at, desk.script.at + start, end - start);
        at += end - start;
        end = start;
    }
    memcpy(desk.script.at + from, turned, at);
}

/* A node that declares as many constants as there can be, in one level: six declarations, each many times. */
static uint32_t lay_wide_book(void) {
    small_records(&records);
    const uint32_t start = (uint32_t)records.counts[LISTS];
    for (uint32_t i = 0; records.counts[CONSTANTS] < MOST[CONSTANTS]; i++) {
        ADD(&records, LISTS, (uint32_t)records.counts[TERMS]);
        ADD(&records, TERMS, ID, (uint32_t)records.counts[CONSTANTS]);
        ADD(&records, CONSTANTS, i % 2 == 0 ? CONSTANT_NAME : GOAL_NAME, i % (USER_TYPE + 1));
    }
    ADD(&records, CONTEXTS, ROOT, (uint32_t)records.counts[TERMS]);
    ADD(&records, TERMS, BUILT_IN, TWICE_NAME, start, (uint32_t)records.counts[LISTS] - start);
    lay_book(&records);
    return (uint32_t)records.counts[CONTEXTS];
}

static void order_tests(void) {
    const size_t push = strlen("(push 1)\n");
    const size_t tail = strlen(OF_TRUE CHECK);
    put_own(lay_wide_book(), TRUE_GOAL);
    expect("a level of many lines", accepts());
    reverse_lines(push, desk.script_len - tail);
    expect("a level in reverse order", accepts());
    expect("a line of it left out", cut("(declare-fun d () Bool)\n", push) && rejects_at(1));
    put_before("(push 1)\n(declare-fun d () Bool)\n");
    expect("and put back in its level", cut("(push 1)\n", push) && accepts());
    expect("a line of it left out again", cut("(declare-fun d () Bool)\n", push) && rejects_at(1));
    put_before("(push 1)\n(declare-fun c () Int)\n");
    expect("as many lines, one once more and one once less", cut("(push 1)\n", push) && rejects_at(1));
}

/* A book with a question whose text is just so long: nodes that say one long name, and a goal that says another. */
enum { ASKED_NODES = 20, LONG = 2900 };

/* How often the text has the nodes' name and the goal's, each once as it is declared; and what it has besides. */
enum {
    NODE_TIMES = ASKED_NODES + 1,
    GOAL_TIMES = 2,
    AT_NODES = ASKED_NODES * (sizeof "(push 1)\n(assert )\n" - 1),
    DECLARED = 2 * (sizeof "(declare-fun  () Bool)\n" - 1),
    BESIDES = AT_NODES + DECLARED + sizeof "(push 1)\n(push 1)\n(assert (not ))\n" CHECK - 1
};

/* Gives the length of the text as it is written. */
static size_t lay_long_book(size_t length) {
    static uint8_t text[2 * LESKOFAR_SCRIPT_MOST];
    const size_t letters = length - BESIDES;
    /* What is left for the goal's name is even: the nodes' name is said an odd number of times, so a letter more of it changes that. */
    const size_t of_nodes = LONG + (letters - NODE_TIMES * LONG) % GOAL_TIMES;
    const size_t of_goal = (letters - NODE_TIMES * of_nodes) / GOAL_TIMES;
    memset(&records, 0, sizeof records);
    memset(records.letters, 'a', MOST_LETTERS);
    ADD(&records, NAMES, 0, (uint32_t)of_nodes);
    ADD(&records, NAMES, 0, (uint32_t)of_goal);
    ADD(&records, CONSTANTS, 0, BOOL);
    ADD(&records, CONSTANTS, 1, BOOL);
    for (uint32_t node = 0; node < ASKED_NODES; node++) {
        ADD(&records, TERMS, ID, 0);
        ADD(&records, CONTEXTS, node, node);
    }
    ADD(&records, TERMS, ID, 1);
    lay_book(&records);
    return own_text(ASKED_NODES, ASKED_NODES, text, sizeof text);
}

static void long_tests(void) {
    const size_t most = LESKOFAR_SCRIPT_MOST;
    expect("a book for a text of 65,536 bytes", lay_long_book(most) == most);
    put_own(ASKED_NODES, ASKED_NODES);
    expect("a text of 65,536 bytes", desk.script_len == most && accepts());
    desk.script.at[most - strlen("))\n" CHECK) - 1] = 'b';
    expect("its last letter changed", rejects_at(1));
    put_own(ASKED_NODES, ASKED_NODES);
    add_text("\n");
    expect("a text of 65,536 bytes and a line end", refuses(LESKOFAR_COUNT_OVER_LIMIT));

    expect("a book for a text of 65,537 bytes", lay_long_book(most + 1) == most + 1);
    put_own(ASKED_NODES, ASKED_NODES);
    expect("a text of 65,537 bytes", desk.script_len == most + 1 && refuses(LESKOFAR_COUNT_OVER_LIMIT));
    expect("a letter left out", cut("a", most - strlen("aaa))\n" CHECK)) && desk.script_len == most && rejects_at(1));
    put_own(ASKED_NODES, ASKED_NODES);
    expect("two levels left out", cut("(push 1)\n", most - LONG) && cut("(push 1)\n", 0) && rejects_at(1));

    expect("a book for a longer text", lay_long_book(most + LONG) == most + LONG);
    ask_one(0, ASKED_NODES);
    add_question(ASKED_NODES, ASKED_NODES);
    desk.script_len = own_text(0, ASKED_NODES, desk.script.at, sizeof desk.script.at);
    add_text(CHECK);
    expect("a text longer than any script, behind a good one", rejects_at(2));
    ask_one(ASKED_NODES, ASKED_NODES);
    put_text(CHECK);
    expect("a text longer than any script, and nothing live", rejects_at(1));
}

int main(void) {
    depth_tests();
    push_tests();
    check_tests();
    equal_tests();
    repeat_tests();
    order_tests();
    long_tests();
    expect("what each call has left", are_left_well);
    return close_tests();
}
