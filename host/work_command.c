#include "commands.h"

#include "book_view.h"
#include "inquiry.h"
#include "line.h"
#include "names.h"
#include "refusals.h"
#include "report.h"
#include "sentence.h"
#include "sorts.h"

#include <inttypes.h>
#include <stdio.h>
#include <string.h>

static const char USAGE[] = "usage: leskofar work BOOK [-o NEW] [OPTIONS]";
static const char ASK[] = "ask";
static const char ASK_USAGE[] = "usage: ask NODE TERM";

/* What the command is asked for. */
struct request {
    const char *book;
    const char *new_book; /* NULL where the grown book is not wanted */
    struct inquiry inquiry;
};

enum { OPTION_COUNT = INQUIRY_OPTIONS + 1 };

struct work {
    const struct inquiry *inquiry;
    struct writer *writer;
    struct log log;
    struct prover prover;
    struct report report;
    bool is_checked; /* the book's names and sorts, since it has grown */
};

static bool spares_new_book(const struct request *request) {
    return request->new_book == NULL || inquiry_spares(&request->inquiry, request->new_book, "the new book");
}

static bool read_request(int count, char **arguments, struct request *request) {
    struct operands operands;
    struct option options[OPTION_COUNT] = {[INQUIRY_OPTIONS] = {.name = "-o", .text = &request->new_book}};
    inquiry_options(&request->inquiry, options);
    if (!options_read(count, arguments, options, OPTION_COUNT, &operands)) {
        return false;
    }
    if (operands.count != 1) {
        complain(USAGE);
        return false;
    }
    request->book = operands.at[0];
    return inquiry_has_memory(&request->inquiry) && inquiry_spares(&request->inquiry, request->book, "the book") &&
           spares_new_book(request);
}

/* Tells what is wrong with the book or the question, as a warning or as the question's result, and whether it may still be asked. */
static bool may_ask(struct work *work, const struct question *question, const struct bytes *complaint, bool is_raw) {
    if (is_raw) {
        complain("warning: %.*s", sentence_length(complaint), sentence_text(complaint));
    } else {
        report_unasked(&work->report, question, complaint);
    }
    return is_raw;
}

/* One of the checks of a whole book. */
static bool passes(struct work *work, const struct question *question, bool (*check)(const struct bytes *, struct bytes *), bool is_raw) {
    struct bytes complaint = {0};
    bool is_good = check(&work->writer->book, &complaint) || may_ask(work, question, &complaint, is_raw);
    bytes_free(&complaint);
    return is_good;
}

/* What is asked must be able to be true or false. A term that is not in the book is left to the library, which refuses it. */
static bool is_truth(struct work *work, const struct question *question) {
    const struct bytes *book = &work->writer->book;
    if (question->term >= book_count(book, SECTION_TERMS) || sorts_is_truth(book, question->term)) {
        return true;
    }
    struct bytes complaint = {0};
    sentence_add(&complaint, "term %" PRIu32 " is no truth value", question->term);
    bool is_good = may_ask(work, question, &complaint, work->inquiry->raw_sorts);
    bytes_free(&complaint);
    return is_good;
}

/* What z3 would misread is refused with --raw-names too. */
static bool suits_solver(struct work *work, const struct question *question) {
    return !work->prover.engine.is_z3 || passes(work, question, names_check_for_z3, false);
}

/* What has been looked at is not looked at again until the book grows. */
static bool is_sound(struct work *work, const struct question *question) {
    work->is_checked = work->is_checked || (suits_solver(work, question) && passes(work, question, names_check, work->inquiry->raw_names) &&
                                            passes(work, question, sorts_check, work->inquiry->raw_sorts));
    return work->is_checked && is_truth(work, question);
}

static void ask(struct work *work, const struct question *question) {
    if (!is_sound(work, question)) {
        return;
    }
    report_question(&work->report, work->writer, question);
    if (show_flush()) {
        struct result result = prover_ask(&work->prover, question);
        report_result(&work->report, &work->prover, question, &result, PREMISES_UNASKED);
    }
}

static bool do_ask(struct work *work, int count, char **words) {
    struct operands operands;
    uint64_t node = 0;
    uint64_t term = 0;
    if (!options_read(count, words, NULL, 0, &operands)) {
        return false;
    }
    if (operands.count != 2) {
        complain(ASK_USAGE);
        return false;
    }
    if (!options_number(operands.at[0], "NODE", 0, UINT32_MAX, &node) || !options_number(operands.at[1], "TERM", 0, UINT32_MAX, &term)) {
        return false;
    }
    ask(work, &(struct question){(uint32_t)node, (uint32_t)term});
    return true;
}

static void grow(struct work *work, const struct growth *growth) {
    uint32_t refusal = writer_grow(work->writer, growth);
    if (refusal == LESKOFAR_ACCEPTED) {
        work->is_checked = false;
        (void)printf("%" PRIu32 "\n", work->writer->number);
    } else {
        (void)printf("refused %" PRIu32 "%s: %s\n", refusal, refusal_place(refusal), refusal_meaning(refusal));
        report_status(&work->report, STATUS_REFUSED);
    }
}

static bool do_growth(struct work *work, const char *command, int count, char **words) {
    struct growth growth;
    bool is_read = growth_read(command, count, words, false, &growth);
    if (is_read) {
        grow(work, &growth);
    }
    growth_free(&growth);
    return is_read;
}

/* Does what a line says. False after a complaint, where it says nothing that can be done. */
static bool do_line(struct work *work, struct line *line) {
    const char *command = line->words[0];
    if (strcmp(command, ASK) == 0) {
        return do_ask(work, line->count - 1, line->words + 1);
    }
    if (growth_is_command(command)) {
        return do_growth(work, command, line->count - 1, line->words + 1);
    }
    complain("there is no command %s here; leskofar work --help lists them", command);
    return false;
}

/* Does line after line, as long as somebody can read what is shown and what is logged. True where all are done. */
static bool do_lines(struct work *work) {
    struct line line = {0};
    enum line_state state = line_next(&line);
    bool goes_on = true;
    while (goes_on && state == LINE_READ) {
        goes_on = do_line(work, &line) && show_flush() && log_is_written(work->prover.talk.log);
        state = goes_on ? line_next(&line) : state;
    }
    line_free(&line);
    complain_of_line(0);
    return goes_on && state == LINE_END;
}

/* Only what was worked to its end is written. */
static enum status work_on(const struct request *request, struct writer *writer) {
    const struct inquiry *inquiry = &request->inquiry;
    struct work work = {.inquiry = inquiry, .writer = writer};
    if (!inquiry_begin(inquiry, writer, &work.log, &work.prover)) {
        return STATUS_REFUSED;
    }
    work.report = (struct report){.show = show_begin(false),
                                  .is_verbose = inquiry->is_verbose,
                                  .shows_obligations = inquiry->shows_obligations};
    /* Two names of one file that was not there can be told only now that the log is. */
    bool is_done = spares_new_book(request) && do_lines(&work);
    enum status status = inquiry_end(inquiry, &work.prover, work.report.status);
    bool is_written = is_done && (request->new_book == NULL || command_write(request->new_book, &writer->book));
    return is_written || status > STATUS_REFUSED ? status : STATUS_REFUSED;
}

enum status command_work(int count, char **arguments) {
    struct request request = {.inquiry = inquiry_default()};
    struct writer writer = {0};
    enum status status = STATUS_REFUSED;
    if (read_request(count, arguments, &request) && command_open(&writer, request.book) &&
        command_accepted(request.book, writer_test_book(&writer))) {
        status = work_on(&request, &writer);
    }
    writer_free(&writer);
    return show_end() || status > STATUS_REFUSED ? status : STATUS_REFUSED;
}
