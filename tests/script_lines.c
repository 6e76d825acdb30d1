/*
 * What the host says of a script's lines, against the library: there is a fault exactly where an audit is refused 26, on the first line up
 * to which the script alone is refused so. And where its check-sats are: as many questions are not refused 27.
 */
#include "../host/script_lines.h"
#include "audit_book.h"
#include "command_lines.h"

enum { BYTES = 256 };

/* The library's word on the first so many bytes of the script, for so many questions. */
static uint32_t refusal_of(size_t length, size_t questions) {
    uint8_t scratch[LESKOFAR_SCRATCH];
    return leskofar_audit(desk.book.at, desk.book_len, scratch, sizeof scratch, desk.questions.at, questions * QUESTION, desk.script.at,
                          length)
        .refusal;
}

/* Where a line ends, counted from 1, with its line end; 0 for the first, and the script's length for those that have no end. */
static size_t end_of(size_t number) {
    size_t end = 0;
    for (size_t i = 0; i < number && end < desk.script_len; i++) {
        const uint8_t *found = memchr(desk.script.at + end, '\n', desk.script_len - end);
        end = found == NULL ? desk.script_len : (size_t)(found - desk.script.at) + 1;
    }
    return end;
}

/* The first line up to which the script is refused 26, and 0 where it is not. */
static size_t refused_line(void) {
    size_t number = 0;
    size_t end = 0;
    while (end < desk.script_len) {
        number++;
        end = end_of(number);
        if (refusal_of(end, 0) == LESKOFAR_FOREIGN_LINE) {
            return number;
        }
    }
    return 0;
}

/* What is wrong with a line that is refused. */
static enum line_fault fault_of(size_t number) {
    size_t start = end_of(number - 1);
    size_t length = end_of(number) - start;
    if (desk.script.at[start + length - 1] != '\n') {
        return LINE_UNENDED;
    }
    return length == strlen(POP) && memcmp(desk.script.at + start, POP, length) == 0 ? LINE_POPS : LINE_FOREIGN;
}

static struct bytes script(void) {
    return (struct bytes){.at = desk.script.at, .length = desk.script_len, .room = desk.script_len};
}

/* The host and the library agree. */
static int agree(void) {
    struct bytes lines = script();
    size_t number = 0;
    enum line_fault fault = script_first_fault(&lines, &number);
    size_t refused = refused_line();
    return refused == 0 ? fault == LINE_GOOD : number == refused && fault == fault_of(refused);
}

/* They agree on this fault at this line, where there is one. */
static int agree_on(enum line_fault wanted, size_t wanted_number) {
    struct bytes lines = script();
    size_t number = 0;
    return agree() && script_first_fault(&lines, &number) == wanted && (wanted == LINE_GOOD || number == wanted_number);
}

/* A line alone, behind two others, and as a last one without its end. */
static void line_tests(const char *line, enum line_fault fault) {
    put_text(line);
    add_text("\n");
    expect(line, agree_on(fault, 1));
    put_text("(push 1)\n(assert x)\n");
    add_text(line);
    add_text("\n(get-model)\n;\n");
    expect(line, agree_on(LINE_FOREIGN, fault == LINE_GOOD ? 5 : 3));
    put_text("(push 1)\n");
    add_text(line);
    expect(line, agree_on(strlen(line) == 0 ? LINE_GOOD : LINE_UNENDED, 2));
}

/* Every byte at every place of a line and of its end, behind a level that could be popped. */
static void byte_tests(const char *line) {
    int are_good = 1;
    put_text("(push 1)\n");
    const size_t start = desk.script_len;
    add_text(line);
    add_text("\n(get-model)\n");
    for (size_t place = start; place <= start + strlen(line); place++) {
        uint8_t kept = desk.script.at[place];
        for (int byte = 0; byte < BYTES; byte++) {
            desk.script.at[place] = (uint8_t)byte;
            are_good = are_good && agree();
        }
        desk.script.at[place] = kept;
    }
    expect(line, are_good);
}

static void table_tests(void) {
    for (size_t i = 0; i < COMMANDS; i++) {
        line_tests(commands[i], LINE_GOOD);
        byte_tests(commands[i]);
    }
    for (size_t i = 0; i < OTHERS; i++) {
        line_tests(others[i], LINE_FOREIGN);
        byte_tests(others[i]);
    }
    byte_tests("(pop 1)");
    byte_tests("(check-sat)");
    put_text("");
    expect("no line at all", agree_on(LINE_GOOD, 0));
}

/* The check-sats of a script without faults: as many questions are not refused 27, up to each of them and before it. */
static int agree_on_checks(void) {
    struct bytes lines = script();
    size_t count = script_check_count(&lines);
    int are_good = refusal_of(desk.script_len, count) != LESKOFAR_CHECKS_DIFFER && script_check_line(&lines, count + 1) == 0;
    for (size_t check = 1; check <= count; check++) {
        size_t line = script_check_line(&lines, check);
        are_good = are_good && line > 0 && refusal_of(end_of(line - 1), check - 1) != LESKOFAR_CHECKS_DIFFER &&
                   refusal_of(end_of(line), check) != LESKOFAR_CHECKS_DIFFER;
    }
    return are_good;
}

/* Every row of so many pushes, pops and check-sats: some pop the first level. */
static void row_tests(void) {
    enum { KINDS = 3, LONGEST = 7 };
    static const char *const kinds[KINDS] = {"(push 1)\n", POP, CHECK};
    int are_good = 1;
    size_t met[LINE_UNENDED + 1] = {0};
    size_t rows = 1;
    for (size_t i = 0; i < LONGEST; i++) {
        rows *= KINDS;
        add_question(ROOT, TRUE_GOAL);
    }
    for (size_t row = 0; row < rows; row++) {
        put_text("");
        for (size_t i = 0, rest = row; i < LONGEST; i++, rest /= KINDS) {
            add_text(kinds[rest % KINDS]);
        }
        size_t number = 0;
        struct bytes lines = script();
        enum line_fault fault = script_first_fault(&lines, &number);
        met[fault]++;
        are_good = are_good && agree() && (fault != LINE_GOOD || agree_on_checks());
    }
    expect("rows of pushes, pops and check-sats", are_good);
    expect("some of them good, some not, and none otherwise", met[LINE_GOOD] > 0 && met[LINE_POPS] > 0 && met[LINE_FOREIGN] == 0);
}

int main(void) {
    set_up();
    table_tests();
    row_tests();
    return close_tests();
}
