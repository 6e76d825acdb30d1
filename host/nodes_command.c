#include "commands.h"

#include "book_view.h"
#include "numbers.h"
#include "refusals.h"
#include "report.h"

#include <inttypes.h>
#include <stdio.h>

static const char USAGE[] = "usage: leskofar nodes BOOK [NODE ..]";

/* A node and its position; people count from 1, so that must be said. */
#define NODE_AT "node %" PRIu32 ", at position %zu of the list (the first is 0),"

/* A list of nodes is a row of numbers, as the library takes it. */

static size_t count_of(const struct bytes *nodes) {
    return nodes->length / NUMBER_SIZE;
}

static uint32_t node_at(const struct bytes *nodes, size_t position) {
    return number_at(nodes->at + position * NUMBER_SIZE);
}

static bool add_node(struct bytes *nodes, uint32_t node) {
    bool is_added = number_add(nodes, node);
    if (!is_added) {
        complain("the memory does not suffice");
    }
    return is_added;
}

/* The nodes that are named behind the book. */
static bool read_nodes(const struct operands *words, struct bytes *nodes) {
    bool is_read = true;
    for (size_t i = 1; is_read && i < words->count; i++) {
        uint64_t node = 0;
        is_read = options_number(words->at[i], "NODE", 0, UINT32_MAX, &node) && add_node(nodes, (uint32_t)node);
    }
    return is_read;
}

static bool read_words(int count, char **arguments, struct operands *words, struct bytes *nodes) {
    if (!options_read(count, arguments, NULL, 0, words)) {
        return false;
    }
    if (words->count < 1) {
        complain(USAGE);
        return false;
    }
    return read_nodes(words, nodes);
}

/* All nodes of a good book where none is named. The root is left out, as it can always be reached: so they are never too many. */
static bool complete(const struct bytes *book, struct bytes *nodes) {
    uint32_t last = count_of(nodes) == 0 ? book_count(book, SECTION_CONTEXTS) : 0;
    bool is_complete = true;
    for (uint32_t node = 1; is_complete && node <= last; node++) {
        is_complete = add_node(nodes, node);
    }
    return is_complete;
}

/* The library does not say which node is not in the book: the position of the first such, or behind the last where there is none. */
static size_t position_outside(const struct bytes *book, const struct bytes *nodes) {
    size_t position = 0;
    while (position < count_of(nodes) && node_at(nodes, position) <= book_count(book, SECTION_CONTEXTS)) {
        position++;
    }
    return position;
}

/* Whether the list was accepted. The book has passed its test, so what is refused here is the list. */
static bool is_accepted(const char *path, const struct bytes *book, const struct bytes *nodes, uint32_t refusal) {
    size_t outside = position_outside(book, nodes);
    if (refusal == LESKOFAR_COUNT_OVER_LIMIT) {
        complain("%s: refused %" PRIu32 ": %zu nodes are named, and at most %d may be", path, refusal, count_of(nodes),
                 LESKOFAR_NODES_MOST);
    } else if (refusal == LESKOFAR_NOT_IN_BOOK && outside < count_of(nodes)) {
        complain("%s: refused %" PRIu32 ": " NODE_AT " is not in the book, whose last node is %" PRIu32, path, refusal,
                 node_at(nodes, outside), outside, book_count(book, SECTION_CONTEXTS));
    } else {
        return command_accepted(path, refusal);
    }
    return false;
}

static enum status show_failing(struct writer *writer, const struct bytes *nodes) {
    const struct show show = show_begin(false);
    size_t position = (size_t)writer->position;
    uint32_t node = node_at(nodes, position);
    (void)printf(NODE_AT " would be refused %d: %s\n", node, position, LESKOFAR_MISSING_AXIOM,
                 refusal_meaning(LESKOFAR_MISSING_AXIOM));
    report_trace(&show, writer, node);
    return STATUS_NOT_REACHED;
}

static enum status show_reached(size_t count) {
    if (count == 0) {
        (void)puts("the book has no node but the root, which can always be reached");
    } else {
        (void)printf("%zu %s can be reached\n", count, count == 1 ? "node" : "nodes");
    }
    return STATUS_DONE;
}

/*
 * Names and sorts are not looked at: whether a node can be reached does not hang on them, and check tells of them. The book is tested
 * by itself first: its nodes are to be counted, and a refusal of the book is not to be taken for one of the list.
 */
enum status command_nodes(int count, char **arguments) {
    struct operands words;
    struct writer writer = {0};
    struct bytes nodes = {0};
    enum status status = STATUS_REFUSED;
    if (read_words(count, arguments, &words, &nodes) && command_open(&writer, words.at[0]) &&
        command_accepted(words.at[0], writer_test_book(&writer)) && complete(&writer.book, &nodes) &&
        is_accepted(words.at[0], &writer.book, &nodes, writer_nodes_test(&writer, &nodes))) {
        status = writer.result == LESKOFAR_NODES_PASS ? show_reached(count_of(&nodes)) : show_failing(&writer, &nodes);
    }
    bytes_free(&nodes);
    writer_free(&writer);
    return show_end() ? status : STATUS_REFUSED;
}
