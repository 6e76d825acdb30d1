#include "book_file.h"

#include "complain.h"
#include "input_file.h"

bool book_file_read(const char *path, bool takes_standard, struct bytes *book) {
    bool is_read = takes_standard ? input_read(path, BOOK_FILE_MOST, book) : input_file_read(path, BOOK_FILE_MOST, book);
    if (is_read && book->length > BOOK_FILE_MOST) {
        complain("%s: no book is longer than %d bytes", takes_standard ? input_name(path) : path, BOOK_FILE_MOST);
        is_read = false;
    }
    return is_read;
}
