/* Writes the deepest books into a directory: one for each shape of nest and each place of it, with the numbers for the host beside it. */
#include "nests.h"

#include <stdio.h>
#include <stdlib.h>

enum { BOOK_SIZE = 65536, PATH_SIZE = 4096 };

static uint8_t book[BOOK_SIZE];

static void stop_if(int fault, const char *what) {
    if (fault) {
        fprintf(stderr, "cannot write %s\n", what);
        exit(EXIT_FAILURE);
    }
}

/* A book, and a line with its file's name, its last node and its last term. */
static void put(const char *directory, const char *place, size_t shape, struct written written) {
    char path[PATH_SIZE];
    int length = snprintf(path, sizeof path, "%s/%s_%zu.book", directory, place, shape);
    stop_if(length < 0 || length >= PATH_SIZE, directory);
    FILE *file = fopen(path, "wb");
    stop_if(file == NULL, path);
    stop_if(fwrite(book, 1, written.len, file) != written.len, path);
    stop_if(fclose(file) != 0, path);
    stop_if(printf("%s %u %u\n", path, (unsigned)written.node, (unsigned)written.term) < 0, path);
}

int main(int count, char **arguments) {
    stop_if(count != 2, "without a directory");
    for (size_t i = 0; i < sizeof shapes / sizeof shapes[0]; i++) {
        put(arguments[1], "node", i, write_nest(book, &shapes[i], leaf));
        put(arguments[1], "axiom", i, write_axioms(book, &shapes[i], 1));
        put(arguments[1], "axioms", i, write_axioms(book, &shapes[i], MOST_AXIOMS));
        put(arguments[1], "own", i, write_own_axiom(book, &shapes[i]));
        put(arguments[1], "deep", i, write_deep_axiom(book, &shapes[i], MOST_DEPTH));
    }
    put(arguments[1], "chain", 0, write_chain(book));
    stop_if(fflush(stdout) != 0, "the list");
    return EXIT_SUCCESS;
}
