/* Reads a book from a file. */
#ifndef BOOK_FILE_H
#define BOOK_FILE_H

#include "bytes.h"

/* Far more than the largest book has; whatever is longer is no book, and is not read to its end. */
enum { BOOK_FILE_MOST = 1 << 20 };

/* Where `takes_standard` is given, `-` stands for standard input. False after a complaint. */
bool book_file_read(const char *path, bool takes_standard, struct bytes *book);

#endif
