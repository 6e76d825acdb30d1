/* Which lines of a script an audit takes for commands, and which levels may be popped. */
#include "audit_book.h"
#include "command_lines.h"

enum { BYTES = 256, FIRST_LETTER = 0x20, LAST_LETTER = 0x7E };

/* A line alone, behind others, and as a last one without its end. */
static void line_tests(const char *line, int is_command) {
    const uint32_t refusal = is_command ? LESKOFAR_ACCEPTED : LESKOFAR_FOREIGN_LINE;
    put_text(line);
    add_text("\n");
    expect(line, refuses(refusal));
    put_text("(push 1)\n(assert x)\n");
    add_text(line);
    add_text("\n(get-model)\n");
    expect(line, refuses(refusal));
    put_text("(push 1)\n");
    add_text(line);
    expect(line, refuses(strlen(line) == 0 ? LESKOFAR_ACCEPTED : LESKOFAR_FOREIGN_LINE));
}

static void table_tests(void) {
    set_up();
    for (size_t i = 0; i < COMMANDS; i++) {
        line_tests(commands[i], 1);
    }
    for (size_t i = 0; i < OTHERS; i++) {
        line_tests(others[i], 0);
    }
}

/* Every byte at a place of a line, and whether the line is still a command. */
static int are_judged(const char *line, size_t place, int (*is_good)(int)) {
    int are_good = 1;
    put_text(line);
    for (int byte = 0; byte < BYTES; byte++) {
        desk.script.at[place] = (uint8_t)byte;
        are_good = are_good && refuses(is_good(byte) ? LESKOFAR_ACCEPTED : LESKOFAR_FOREIGN_LINE);
    }
    return are_good;
}

static int is_letter(int byte) {
    return byte >= FIRST_LETTER && byte <= LAST_LETTER;
}

static int is_between(int byte) {
    return is_letter(byte) && byte != '|';
}

static int is_outside(int byte) {
    return is_letter(byte) && strchr("|;\"()", byte) == NULL;
}

static int is_blank(int byte) {
    return byte == ' ';
}

static int is_opening(int byte) {
    return byte == '(';
}

static int is_closing(int byte) {
    return byte == ')';
}

static int is_none(int byte) {
    (void)byte;
    return 0;
}

static void byte_tests(void) {
    set_up();
    expect("every byte between bars", are_judged("(assert |x|)\n", strlen("(assert |"), is_between));
    expect("every byte outside bars", are_judged("(assert x)\n", strlen("(assert "), is_outside));
    expect("every byte in a name's place", are_judged("(declare-fun x () Int)\n", strlen("(declare-fun "), is_outside));
    expect("every byte behind the first word", are_judged("(assert x)\n", strlen("(assert"), is_blank));
    expect("every byte in place of the first", are_judged("(assert x)\n", 0, is_opening));
    expect("every byte in place of the last", are_judged("(assert x)\n", strlen("(assert x"), is_closing));
    expect("every byte before a line", are_judged("x(assert x)\n", 0, is_none));
    expect("every byte behind a line", are_judged("(assert x)x\n", strlen("(assert x)"), is_none));
    expect("every byte as the last line", are_judged("(assert x)\nx", strlen("(assert x)\n"), is_none));
}

/* The four fixed lines behind a level that can be popped, with every byte changed and every part cut off. */
static void fixed_tests(void) {
    static const struct {
        const char *line;
        uint32_t refusal;
    } fixed[] = {{"(push 1)\n", LESKOFAR_ACCEPTED},
                 {"(pop 1)\n", LESKOFAR_ACCEPTED},
                 {"(check-sat)\n", LESKOFAR_CHECKS_DIFFER},
                 {"(get-model)\n", LESKOFAR_ACCEPTED}};
    static const char level[] = "(push 1)\n";
    int are_good = 1;
    set_up();
    for (size_t i = 0; i < sizeof fixed / sizeof fixed[0]; i++) {
        const char *line = fixed[i].line;
        for (size_t place = 0; place < strlen(line); place++) {
            put_text(level);
            add_text(line);
            for (int byte = 0; byte < BYTES; byte++) {
                desk.script.at[strlen(level) + place] = (uint8_t)byte;
                are_good = are_good && refuses(byte == line[place] ? fixed[i].refusal : LESKOFAR_FOREIGN_LINE);
            }
            put_text(level);
            add_text(line + place);
            are_good = are_good && refuses(place == 0 ? fixed[i].refusal : LESKOFAR_FOREIGN_LINE);
        }
    }
    expect("fixed lines with a byte changed, and cut in front", are_good);
}

/* The first level cannot be popped, however many were pushed before. */
static void pop_tests(void) {
    set_up();
    put_text("(pop 1)\n");
    expect("a pop alone", refuses(LESKOFAR_FOREIGN_LINE));
    put_text("(push 1)\n(pop 1)\n");
    expect("a level and its pop", accepts());
    put_text("(push 1)\n(pop 1)\n(pop 1)\n(push 1)\n");
    expect("a pop too early", refuses(LESKOFAR_FOREIGN_LINE));
    put_text("(push 1)\n(push 1)\n(pop 1)\n(pop 1)\n(assert x)\n");
    expect("two levels and their pops", accepts());
    add_text("(pop 1)\n");
    expect("and one pop more", refuses(LESKOFAR_FOREIGN_LINE));
    ask_one(ROOT, TRUE_GOAL);
    put_text(OF_TRUE CHECK POP POP);
    expect("all pops behind the last check-sat", accepts());
    add_text(POP);
    expect("one pop too many behind it", refuses(LESKOFAR_FOREIGN_LINE));
    put_text(OF_OTHER CHECK POP POP POP);
    expect("one pop too many behind one that differs", refuses(LESKOFAR_FOREIGN_LINE));
}

/* Our own text of a question, and another one. */
static void own_test(const char *name, uint32_t node, uint32_t goal, uint32_t refusal) {
    int is_bad = refusal == LESKOFAR_BAD_NAME;
    lay_book(&records);
    put_own(node, goal);
    expect(name, (desk.script_len > 0) == !is_bad && refuses(refusal));
    put_text(OF_TRUE CHECK);
    expect(name, is_bad ? refuses(refusal) : rejects_at(1));
}

/*
 * A constant's name is a symbol there, which no line breaks at, or the book is refused. An operator's is as the book has it, and some make
 * lines that are no commands.
 */
static void name_tests(void) {
    static const struct {
        const char *name;
        int is_symbol;
        int keeps_line;
    } names[] = {{"|a b|", 1, 1}, {"|a;b|", 1, 1},  {"|(|", 1, 1}, {"|)|", 1, 1},  {"|\"|", 1, 1}, {"a b", 1, 1},
                 {"a'b", 1, 1},   {"(a)", 1, 1},    {"a;b", 1, 0}, {"a\"b", 1, 0}, {"(", 1, 0},    {")", 1, 0},
                 {"a)b", 1, 0},   {"|a||b|", 0, 1}, {"", 0, 1},    {"a|b", 0, 0},  {"|;", 0, 0}};
    for (size_t i = 0; i < sizeof names / sizeof names[0]; i++) {
        small_records(&records);
        add_name(&records, names[i].name);
        const uint32_t name = (uint32_t)records.counts[NAMES] - 1;
        ADD(&records, TERMS, BUILT_IN, name);
        own_test(names[i].name, ROOT, LAST_TERM + 1, names[i].keeps_line ? LESKOFAR_ACCEPTED : LESKOFAR_FOREIGN_LINE);
        records.numbers[CONSTANTS][0] = name;
        own_test(names[i].name, CONSTANT_NODE, OTHER_GOAL, names[i].is_symbol ? LESKOFAR_ACCEPTED : LESKOFAR_BAD_NAME);
    }
}

int main(void) {
    table_tests();
    byte_tests();
    fixed_tests();
    pop_tests();
    name_tests();
    expect("what each call has left", are_left_well);
    return close_tests();
}
