#include "commands.h"

#include "book_view.h"
#include "input_file.h"
#include "questions.h"
#include "refusals.h"
#include "script_lines.h"
#include "show.h"

#include <inttypes.h>
#include <stdio.h>

static const char USAGE[] = "usage: leskofar audit BOOK SCRIPT NODE TERM [NODE TERM ..], or leskofar audit BOOK SCRIPT --questions FILE";

/* What the command is asked for. */
struct request {
    const char *book;
    const char *script;
    const char *list; /* a file of questions; NULL where they are among the words */
    char **words;
    size_t word_count;
};

/* What is audited. */
struct audit {
    struct writer writer;
    struct bytes questions;
    struct bytes script;
};

/* Questions are pairs of words, or a file and no words. */
static bool has_questions(const struct request *request) {
    size_t count = request->word_count;
    return request->list == NULL ? count > 0 && count % 2 == 0 : count == 0;
}

/* Standard input can be read only once. */
static bool has_one_input(const struct request *request) {
    int inputs = input_is_standard(request->book) + input_is_standard(request->script) +
                 (request->list != NULL && input_is_standard(request->list));
    if (inputs > 1) {
        complain("only one of BOOK, SCRIPT and FILE can be standard input");
    }
    return inputs <= 1;
}

static bool read_request(int count, char **arguments, struct request *request) {
    struct operands operands;
    const struct option options[] = {{.name = "--questions", .text = &request->list}};
    if (!options_read(count, arguments, options, sizeof options / sizeof options[0], &operands)) {
        return false;
    }
    if (operands.count >= 2) {
        request->book = operands.at[0];
        request->script = operands.at[1];
        request->words = operands.at + 2;
        request->word_count = operands.count - 2;
    }
    if (operands.count < 2 || !has_questions(request)) {
        complain(USAGE);
        return false;
    }
    return has_one_input(request);
}

/* One byte more than a script may have is enough for the library to refuse it. */
static bool read_audit(const struct request *request, struct audit *audit) {
    bool is_listed = request->list == NULL ? questions_of_words(request->words, request->word_count, &audit->questions)
                                           : questions_of_file(request->list, &audit->questions);
    return is_listed && command_open_input(&audit->writer, request->book) &&
           input_read(request->script, LESKOFAR_SCRIPT_MOST, &audit->script);
}

/* Only of a book that has passed its test. */
static bool is_outside(const struct bytes *book, const struct question *question) {
    return question->node > book_count(book, SECTION_CONTEXTS) || question->term >= book_count(book, SECTION_TERMS);
}

/* A fresh session is asked only where nothing less tells: it tests the whole book each time. */
static bool is_refused(struct writer *writer, const struct question *question, uint32_t refusal) {
    return refusal == LESKOFAR_NOT_IN_BOOK ? is_outside(&writer->book, question)
                                           : writer_test_question(writer, question->node, question->term) == refusal;
}

/* The library does not say which question it is: the first that would be refused so by itself. */
static bool complain_of_question(const char *name, struct audit *audit, uint32_t refusal) {
    size_t count = questions_count(&audit->questions);
    for (size_t i = 0; i < count; i++) {
        struct question question = question_at(&audit->questions, i);
        if (is_refused(&audit->writer, &question, refusal)) {
            complain("%s: refused %" PRIu32 ": question %zu, node %" PRIu32 ", term %" PRIu32 ": %s", name, refusal, i + 1,
                     question.node, question.term, refusal_meaning(refusal));
            return true;
        }
    }
    return false;
}

static bool complain_of_tag(const char *name, const struct bytes *book) {
    uint32_t count = book_count(book, SECTION_TERMS);
    for (uint32_t term = 0; term < count; term++) {
        if (book_is_tag(book, term)) {
            complain("%s: refused %d: term %" PRIu32 " is a %%tag literal", name, LESKOFAR_TAG_IN_BOOK, term);
            return true;
        }
    }
    return false;
}

static bool complain_of_fault(const char *name, const struct bytes *script) {
    static const char *const faults[] = {
        [LINE_FOREIGN] = "is no command of ours", [LINE_POPS] = "pops the first level", [LINE_UNENDED] = "has no line end"};
    size_t number = 0;
    enum line_fault fault = script_first_fault(script, &number);
    if (fault != LINE_GOOD) {
        complain("%s: refused %d: line %zu %s", name, LESKOFAR_FOREIGN_LINE, number, faults[fault]);
    }
    return fault != LINE_GOOD;
}

static bool complain_of_count(const char *name, const struct audit *audit) {
    complain("%s: refused %d: the check-sats are %zu, and the questions %zu", name, LESKOFAR_CHECKS_DIFFER,
             script_check_count(&audit->script), questions_count(&audit->questions));
    return true;
}

static bool complain_of_length(const char *name, const struct bytes *script) {
    bool is_long = script->length > LESKOFAR_SCRIPT_MOST;
    if (is_long) {
        complain("%s: refused %d: the script is longer than %d bytes", name, LESKOFAR_COUNT_OVER_LIMIT, LESKOFAR_SCRIPT_MOST);
    }
    return is_long;
}

/* Says more of a refusal than the library does; false where nothing is found, and the refusal itself has to do. */
static bool complain_closely(const struct request *request, struct audit *audit, uint32_t refusal) {
    const char *book = input_name(request->book);
    const char *script = input_name(request->script);
    switch (refusal) {
    case LESKOFAR_COUNT_OVER_LIMIT:
        return complain_of_length(script, &audit->script);
    case LESKOFAR_NOT_IN_BOOK:
    case LESKOFAR_MISSING_AXIOM:
        return complain_of_question(book, audit, refusal);
    case LESKOFAR_TAG_IN_BOOK:
        return complain_of_tag(book, &audit->writer.book);
    case LESKOFAR_FOREIGN_LINE:
        return complain_of_fault(script, &audit->script);
    case LESKOFAR_CHECKS_DIFFER:
        return complain_of_count(script, audit);
    }
    return false;
}

static enum status show_rejected(const struct audit *audit) {
    uint32_t check = audit->writer.differs;
    struct question question = question_at(&audit->questions, check - 1);
    (void)printf("rejected: check-sat %" PRIu32 " at line %zu, node %" PRIu32 ", term %" PRIu32 "\n", check,
                 script_check_line(&audit->script, check), question.node, question.term);
    return STATUS_REJECTED;
}

static enum status show_accepted(void) {
    (void)puts("accepted");
    return STATUS_DONE;
}

static enum status run_audit(const struct request *request, struct audit *audit) {
    uint32_t refusal = writer_audit(&audit->writer, &audit->questions, &audit->script);
    if (refusal == LESKOFAR_ACCEPTED) {
        return audit->writer.differs == 0 ? show_accepted() : show_rejected(audit);
    }
    if (!complain_closely(request, audit, refusal)) {
        (void)command_accepted(input_name(request->book), refusal);
    }
    return STATUS_REFUSED;
}

/* Names and sorts are not looked at: an audit compares texts, and check tells of them. */
enum status command_audit(int count, char **arguments) {
    struct request request = {0};
    struct audit audit = {0};
    enum status status = STATUS_REFUSED;
    if (read_request(count, arguments, &request) && read_audit(&request, &audit)) {
        status = run_audit(&request, &audit);
    }
    bytes_free(&audit.questions);
    bytes_free(&audit.script);
    writer_free(&audit.writer);
    return show_end() ? status : STATUS_REFUSED;
}
