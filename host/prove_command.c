#include "commands.h"

#include "book_view.h"
#include "inquiry.h"
#include "questions.h"
#include "report.h"
#include "sorts.h"

#include <inttypes.h>

static const char USAGE[] = "usage: leskofar prove BOOK NODE TERM [NODE TERM ..] [OPTIONS]";

/* What the command is asked for. */
struct request {
    const char *book;
    struct bytes questions;
    struct inquiry inquiry;
    bool asks_premises;
    bool is_quiet;
};

enum { OPTION_COUNT = INQUIRY_OPTIONS + 2 };

static bool read_request(int count, char **arguments, struct request *request) {
    struct operands operands;
    struct option options[OPTION_COUNT] = {[INQUIRY_OPTIONS] = {.name = "--premises", .flag = &request->asks_premises},
                                           {.name = "--quiet", .flag = &request->is_quiet}};
    inquiry_options(&request->inquiry, options);
    if (!options_read(count, arguments, options, OPTION_COUNT, &operands)) {
        return false;
    }
    if (operands.count < 3 || operands.count % 2 == 0) {
        complain(USAGE);
        return false;
    }
    request->book = operands.at[0];
    return inquiry_has_memory(&request->inquiry) && questions_of_words(operands.at + 1, operands.count - 1, &request->questions);
}

/* The question, and before it, where that is wanted, what its node's premises are worth. */
static void ask(const struct request *request, struct premises_known *known, struct prover *prover, struct report *report,
                const struct question *question) {
    struct result at_premises = {0};
    enum premises at_node = request->asks_premises ? premises_at(known, prover, question->node, &at_premises) : PREMISES_UNASKED;
    struct result result = prover_ask(prover, question);
    report_result(report, prover, question, &result, at_node);
    if (at_premises.solver_failed) {
        report->status = STATUS_SOLVER_FAILED;
    }
}

/* Goes on as long as somebody can read what is shown and what is logged. */
static enum status ask_each(const struct request *request, struct premises_known *known, struct prover *prover) {
    struct report report = {.show = show_begin(request->is_quiet),
                            .is_verbose = request->inquiry.is_verbose,
                            .shows_obligations = request->inquiry.shows_obligations};
    size_t count = questions_count(&request->questions);
    bool goes_on = true;
    for (size_t i = 0; goes_on && i < count; i++) {
        struct question question = question_at(&request->questions, i);
        report_question(&report, prover->writer, &question);
        show_count(&report.show, i, count);
        goes_on = show_flush();
        if (goes_on) {
            ask(request, known, prover, &report, &question);
            goes_on = show_flush() && log_is_written(prover->talk.log);
        }
    }
    return report.status;
}

static enum status ask_all(const struct request *request, struct premises_known *known, struct writer *writer) {
    struct log log;
    struct prover prover;
    if (!inquiry_begin(&request->inquiry, writer, &log, &prover)) {
        return STATUS_REFUSED;
    }
    return inquiry_end(&request->inquiry, &prover, ask_each(request, known, &prover));
}

/* What is asked must be able to be true or false. A term that is not in the book is left to the library, which refuses it. */
static bool are_truths(const struct request *request, const struct bytes *book) {
    size_t count = questions_count(&request->questions);
    for (size_t i = 0; i < count; i++) {
        uint32_t term = question_at(&request->questions, i).term;
        if (term < book_count(book, SECTION_TERMS) && !sorts_is_truth(book, term)) {
            complain("%s: %sterm %" PRIu32 " is asked, and is no truth value", request->book,
                     request->inquiry.raw_sorts ? "warning: " : "", term);
            return request->inquiry.raw_sorts;
        }
    }
    return true;
}

static bool suits_solver(const struct request *request, const struct bytes *book) {
    return !engine_named(request->inquiry.solver).is_z3 || command_names_for_z3(request->book, book);
}

/* Everything that can be known before a solver is started: false after a complaint. */
static bool is_sound(const struct request *request, struct premises_known *known, const struct bytes *book) {
    const struct inquiry *inquiry = &request->inquiry;
    if (!inquiry_spares(inquiry, request->book, "the book") || !suits_solver(request, book) ||
        !command_names(request->book, book, inquiry->raw_names) || !command_sorts(request->book, book, inquiry->raw_sorts) ||
        !are_truths(request, book)) {
        return false;
    }
    if (request->asks_premises && !premises_begin(known, book)) {
        complain("%s: --premises asks whether false follows, and the book has no term false; plan book adds one", request->book);
        return false;
    }
    return true;
}

enum status command_prove(int count, char **arguments) {
    struct request request = {.inquiry = inquiry_default()};
    struct writer writer = {0};
    struct premises_known known = {0};
    enum status status = STATUS_REFUSED;
    if (read_request(count, arguments, &request) && command_open(&writer, request.book) &&
        command_accepted(request.book, writer_test_book(&writer)) && is_sound(&request, &known, &writer.book)) {
        status = ask_all(&request, &known, &writer);
    }
    bytes_free(&request.questions);
    writer_free(&writer);
    return show_end() || status > STATUS_REFUSED ? status : STATUS_REFUSED;
}
