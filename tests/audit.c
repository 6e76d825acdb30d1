/* Audits as C sees them: what is compared, the first check-sat that differs, and the same of what a session itself sends. */
#include "audit_book.h"

/* One question at node 2, and scripts for it. */
#define ABOVE AT_CONSTANT AT_TWICE
#define ASKED ABOVE OF_TRUE CHECK

static void accepted_tests(void) {
    static const struct {
        const char *name;
        const char *script;
    } cases[] = {
        {"as we write it", ASKED},
        {"a level in another order", AT_CONSTANT "(push 1)\n(assert f)\n(declare-fun f () Bool)\n(assert f)\n" OF_TRUE CHECK},
        {"every level in another order", "(push 1)\n(assert c)\n(declare-fun c () T)\n(declare-sort T 0)\n"
                                         "(push 1)\n(assert f)\n(assert f)\n(declare-fun f () Bool)\n" OF_TRUE CHECK},
        {"models asked for everywhere", "(get-model)\n" AT_CONSTANT "(get-model)\n" AT_TWICE "(push 1)\n(get-model)\n(push 1)\n"
                                        "(assert (not true))\n(get-model)\n" CHECK "(get-model)\n"},
        {"an empty level that is popped", AT_CONSTANT "(push 1)\n(push 1)\n" POP POP AT_TWICE OF_TRUE CHECK},
        {"a wrong level that is popped", AT_CONSTANT AT_LITERAL "(assert )\n" POP AT_TWICE OF_TRUE CHECK},
        {"popped to the root, and built anew", AT_CONSTANT AT_TWICE OF_OTHER POP POP POP POP ASKED},
        {"commands behind the last check-sat", ASKED "(assert )\n(push 1)\n" POP POP POP POP POP "(assert x)\n"},
        {"a level opened, left and gone on with",
         AT_CONSTANT "(push 1)\n(declare-fun f () Bool)\n(push 1)\n(assert )\n" POP "(assert f)\n(assert f)\n" OF_TRUE CHECK},
    };
    set_up();
    ask_one(TWICE_NODE, TRUE_GOAL);
    for (size_t i = 0; i < sizeof cases / sizeof cases[0]; i++) {
        put_text(cases[i].script);
        expect(cases[i].name, accepts());
    }
}

static void rejected_tests(void) {
    static const struct {
        const char *name;
        const char *script;
    } cases[] = {
        {"nothing", CHECK},
        {"no premises", OF_TRUE CHECK},
        {"the goal's level left out", ABOVE "(push 1)\n(assert (not true))\n" CHECK},
        {"the goal's levels in one", ABOVE "(push 1)\n(assert (not true))\n(push 1)\n" CHECK},
        {"a level too many", ABOVE "(push 1)\n" OF_TRUE CHECK},
        {"a level too many behind", ABOVE OF_TRUE "(push 1)\n" CHECK},
        {"a level too many before", "(push 1)\n" ASKED},
        {"levels in another order", AT_TWICE AT_CONSTANT OF_TRUE CHECK},
        {"two levels thrown together", "(push 1)\n(declare-sort T 0)\n(declare-fun c () T)\n(assert c)\n(declare-fun f () Bool)\n"
                                       "(assert f)\n(assert f)\n(push 1)\n" OF_TRUE CHECK},
        {"once in place of twice", AT_CONSTANT "(push 1)\n(declare-fun f () Bool)\n(assert f)\n" OF_TRUE CHECK},
        {"three times", AT_CONSTANT AT_TWICE "(assert f)\n" OF_TRUE CHECK},
        {"another line twice", AT_CONSTANT "(push 1)\n(declare-fun f () Bool)\n(declare-fun f () Bool)\n(assert f)\n" OF_TRUE CHECK},
        {"a line at the first level", "(assert c)\n" ASKED},
        {"a line moved to the first level", "(declare-sort T 0)\n(push 1)\n(declare-fun c () T)\n(assert c)\n" AT_TWICE OF_TRUE CHECK},
        {"a line moved down", "(push 1)\n(declare-sort T 0)\n(declare-fun c () T)\n" AT_TWICE "(assert c)\n" OF_TRUE CHECK},
        {"a line moved up", AT_CONSTANT "(assert f)\n(push 1)\n(declare-fun f () Bool)\n(assert f)\n" OF_TRUE CHECK},
        {"a premise in place of the goal", ABOVE "(push 1)\n(push 1)\n(assert true)\n" CHECK},
        {"another goal", ABOVE OF_OTHER CHECK},
        {"another node", AT_CONSTANT AT_LITERAL OF_TRUE CHECK},
        {"the node above", AT_CONSTANT OF_TRUE CHECK},
        {"other blanks", ABOVE "(push 1)\n(push 1)\n(assert  (not true))\n" CHECK},
        {"a premise that was popped", ABOVE POP "(push 1)\n" OF_TRUE CHECK},
    };
    set_up();
    ask_one(TWICE_NODE, TRUE_GOAL);
    for (size_t i = 0; i < sizeof cases / sizeof cases[0]; i++) {
        put_text(cases[i].script);
        expect(cases[i].name, rejects_at(1));
    }
}

/* What the goal declares has a level of its own, below its negation. */
static void goal_tests(void) {
    static const struct {
        const char *name;
        const char *script;
    } cases[] = {
        {"the goal's declaration left out", "(push 1)\n(push 1)\n(assert (not d))\n" CHECK},
        {"twice", "(push 1)\n(declare-fun d () Bool)\n(declare-fun d () Bool)\n(push 1)\n(assert (not d))\n" CHECK},
        {"of another type", "(push 1)\n(declare-fun d () Int)\n(push 1)\n(assert (not d))\n" CHECK},
        {"beside the negation", "(push 1)\n(push 1)\n(declare-fun d () Bool)\n(assert (not d))\n" CHECK},
        {"at the node's level", "(declare-fun d () Bool)\n(push 1)\n(push 1)\n(assert (not d))\n" CHECK},
        {"the negation beside the declaration", "(push 1)\n(declare-fun d () Bool)\n(assert (not d))\n(push 1)\n" CHECK},
        {"something else beside the declaration", "(push 1)\n(declare-fun d () Bool)\n(assert )\n(push 1)\n(assert (not d))\n" CHECK},
        {"something else beside the negation", OF_OTHER "(assert )\n" CHECK},
        {"the goal itself", "(push 1)\n(declare-fun d () Bool)\n(push 1)\n(assert d)\n" CHECK},
        {"no negation", "(push 1)\n(declare-fun d () Bool)\n(push 1)\n" CHECK},
    };
    set_up();
    for (size_t i = 0; i < sizeof cases / sizeof cases[0]; i++) {
        ask_one(ROOT, OTHER_GOAL);
        put_text(cases[i].script);
        expect(cases[i].name, rejects_at(1));
        ask_one(CONSTANT_NODE, OTHER_GOAL);
        put_text(AT_CONSTANT);
        add_text(cases[i].script);
        expect(cases[i].name, rejects_at(1));
    }
    put_text(AT_CONSTANT OF_OTHER CHECK);
    expect("a goal that declares", accepts());
}

/* Several questions: the first that differs is told, whatever stands behind it. */
static void several_tests(void) {
    set_up();
    add_question(ROOT, TRUE_GOAL);
    add_question(LITERAL_NODE, OTHER_GOAL);
    add_question(LITERAL_NODE, OTHER_GOAL);
    put_text(OF_TRUE CHECK POP POP AT_CONSTANT AT_LITERAL OF_OTHER CHECK CHECK);
    expect("three questions, one of them twice", accepts());
    put_text(OF_TRUE CHECK POP POP AT_CONSTANT AT_LITERAL OF_OTHER CHECK "(assert )\n" CHECK);
    expect("the third differs", rejects_at(3));
    put_text(OF_TRUE CHECK POP POP AT_CONSTANT AT_LITERAL OF_TRUE CHECK CHECK);
    expect("the second differs, and the third", rejects_at(2));
    put_text(OF_TRUE CHECK POP POP AT_CONSTANT AT_LITERAL OF_TRUE CHECK POP POP OF_OTHER CHECK);
    expect("the second alone differs", rejects_at(2));
    put_text(OF_TRUE CHECK AT_CONSTANT AT_LITERAL OF_OTHER CHECK CHECK);
    expect("the first question left open", rejects_at(2));
    put_text(OF_OTHER CHECK POP POP AT_CONSTANT AT_LITERAL OF_OTHER CHECK CHECK);
    expect("the first alone differs", rejects_at(1));
}

static void empty_tests(void) {
    set_up();
    expect("no questions and no script", accepts());
    put_text(ASKED);
    expect("a check-sat without a question", refuses(LESKOFAR_CHECKS_DIFFER));
    put_text(AT_CONSTANT AT_LITERAL "(assert )\n");
    expect("commands without a question", accepts());
    put_text("");
    ask_one(TWICE_NODE, TRUE_GOAL);
    expect("a question without a script", refuses(LESKOFAR_CHECKS_DIFFER));
    ask_one(ROOT, TRUE_GOAL);
    put_text(OF_TRUE CHECK);
    expect("a question at the root", accepts());
    put_text("(assert (not true))\n" CHECK);
    expect("its goal at the first level", rejects_at(1));
}

/* NULL stands for every empty buffer. */
static void null_tests(void) {
    uint8_t scratch[LESKOFAR_SCRATCH];
    set_up();
    leskofar_audited answer = leskofar_audit(desk.book.at, desk.book_len, scratch, sizeof scratch, NULL, 0, NULL, 0);
    expect("neither questions nor script", answer.refusal == LESKOFAR_ACCEPTED && answer.differs == 0);
    answer = leskofar_audit(desk.book.at, desk.book_len, scratch, sizeof scratch, NULL, 0, (const uint8_t *)CHECK, strlen(CHECK));
    expect("no questions", answer.refusal == LESKOFAR_CHECKS_DIFFER && answer.differs == 0);
    ask_one(ROOT, TRUE_GOAL);
    answer = leskofar_audit(desk.book.at, desk.book_len, scratch, sizeof scratch, desk.questions.at, QUESTION, NULL, 0);
    expect("no script", answer.refusal == LESKOFAR_CHECKS_DIFFER && answer.differs == 0);
    expect("no book", leskofar_audit(NULL, 0, scratch, sizeof scratch, NULL, 0, NULL, 0).refusal == LESKOFAR_BAD_CONTENTS);
    expect("no scratch", leskofar_audit(desk.book.at, desk.book_len, NULL, 0, NULL, 0, NULL, 0).refusal == LESKOFAR_SHORT_SCRATCH);
    expect("nothing at all", leskofar_audit(NULL, 0, NULL, 0, NULL, 0, NULL, 0).refusal == LESKOFAR_SHORT_SCRATCH);
}

/* The questions of the book that are not refused, of which no two have the same text. */
static const uint32_t good[][2] = {{ROOT, TWICE_TERM}, {CONSTANT_NODE, OTHER_GOAL}, {TWICE_NODE, TRUE_GOAL}, {LITERAL_NODE, TRUE_GOAL}};
enum { GOOD = sizeof good / sizeof good[0], ROW = 3, ROWS = GOOD * GOOD * GOOD };

static const uint32_t *nth(size_t row, size_t place) {
    for (size_t i = 0; i < place; i++) {
        row /= GOOD;
    }
    return good[row % GOOD];
}

/* A session, and what it sends added to the script. */
static uint8_t image[LESKOFAR_IMAGE];
static uint8_t scratch[LESKOFAR_SCRATCH];
#define CALL desk.book.at, desk.book_len, scratch, sizeof scratch, image, sizeof image
#define SENT desk.script.at + desk.script_len, sizeof desk.script.at - desk.script_len

/* A question to its end: proved, failed, or with a model asked for, by the place in the row. */
static int send(const uint32_t *question, size_t place) {
    static const uint8_t unsat[] = {'u', 'n', 's', 'a', 't'};
    uint8_t reason[sizeof unsat];
    leskofar_answer answer = leskofar_ask(CALL, question[0], question[1], SENT);
    desk.script_len += answer.text;
    if (answer.refusal == LESKOFAR_ACCEPTED) {
        size_t reply_len = place == 2 ? 1 : sizeof unsat;
        answer = leskofar_reply(CALL, place != 1, unsat, reply_len, SENT, reason, sizeof reason);
        desk.script_len += answer.text;
    }
    if (place == 2 && answer.refusal == LESKOFAR_ACCEPTED) {
        answer = leskofar_model(CALL, unsat, 1, 0, NULL, 0, SENT, reason, sizeof reason);
        desk.script_len += answer.text;
    }
    return answer.refusal == LESKOFAR_ACCEPTED;
}

/* A row of three questions in one session, with a move that sends pushes before the last. */
static int send_row(size_t row) {
    int is_sent = leskofar_fresh(image, sizeof image) == LESKOFAR_ACCEPTED;
    desk.script_len = 0;
    for (size_t i = 0; is_sent && i < ROW; i++) {
        leskofar_answer moved = leskofar_move(CALL, i == 2 ? LITERAL_NODE : ROOT, SENT);
        desk.script_len += moved.text;
        is_sent = moved.refusal == LESKOFAR_ACCEPTED && send(nth(row, i), i);
    }
    return is_sent;
}

/* The first place where two rows differ, counted from 1, or 0. */
static uint32_t first_difference(size_t a, size_t b) {
    for (uint32_t i = 0; i < ROW; i++) {
        if (nth(a, i) != nth(b, i)) {
            return i + 1;
        }
    }
    return 0;
}

/* What a session sends is accepted for its own questions, and for any others rejected where they begin to differ. */
static void session_tests(void) {
    int are_sent = 1;
    int are_good = 1;
    set_up();
    for (size_t row = 0; row < ROWS; row++) {
        are_sent = are_sent && send_row(row);
        for (size_t other = 0; other < ROWS; other++) {
            desk.questions_len = 0;
            for (size_t i = 0; i < ROW; i++) {
                add_question(nth(other, i)[0], nth(other, i)[1]);
            }
            are_good = are_good && rejects_at(first_difference(row, other));
        }
    }
    expect("sessions of three questions", are_sent);
    expect("their texts for each other's questions", are_good);
}

int main(void) {
    accepted_tests();
    rejected_tests();
    goal_tests();
    several_tests();
    empty_tests();
    null_tests();
    session_tests();
    expect("what each call has left", are_left_well);
    return close_tests();
}
