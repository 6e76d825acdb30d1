/* For realpath. */
#define _XOPEN_SOURCE 700

#include "new_file.h"

#include "signals.h"

#include <errno.h>
#include <fcntl.h>
#include <stdlib.h>
#include <string.h>
#include <sys/stat.h>
#include <unistd.h>

enum { READABLE_BY_ALL = 0666 }; /* less what the user's mask takes away */
enum { PERMISSIONS = 07777 };

/* How many names beside the file are tried, and the letters that each has more. */
enum { TRIES = 100, MORE_LETTERS = 40 };

bool new_file_is(const char *path, const char *other) {
    struct stat one;
    struct stat two;
    return stat(path, &one) == 0 && stat(other, &two) == 0 && one.st_dev == two.st_dev && one.st_ino == two.st_ino;
}

/* A file for a descriptor, which is closed where there is none. */
static FILE *file_of(int descriptor) {
    FILE *file = descriptor < 0 ? NULL : fdopen(descriptor, "w");
    if (file == NULL && descriptor >= 0) {
        int why = errno;
        (void)close(descriptor); /* nothing has been written */
        errno = why;
    }
    return file;
}

/* A file of a name that nobody has; `name` has room for it. */
static int open_beside(const char *path, char *name, size_t room) {
    int descriptor = -1;
    errno = EEXIST;
    for (int i = 0; i < TRIES && descriptor < 0 && errno == EEXIST; i++) {
        int length = snprintf(name, room, "%s.new-%ld-%d", path, (long)getpid(), i);
        if (length < 0 || (size_t)length >= room) {
            errno = ENAMETOOLONG;
            return -1;
        }
        descriptor = open(name, O_WRONLY | O_CREAT | O_EXCL | O_CLOEXEC, READABLE_BY_ALL);
    }
    return descriptor;
}

/* Puts a new file with the same permissions into the place of an old one. */
static FILE *replace(const char *path, const struct stat *before) {
    size_t room = strlen(path) + MORE_LETTERS;
    char *name = malloc(room);
    int descriptor = name == NULL ? -1 : open_beside(path, name, room);
    FILE *file = NULL;
    if (descriptor >= 0) {
        bool is_in_place = fchmod(descriptor, before->st_mode & PERMISSIONS) == 0 && rename(name, path) == 0;
        int why = errno;
        if (!is_in_place) {
            (void)unlink(name); /* it is ours, and empty */
            (void)close(descriptor);
            errno = why;
        }
        file = is_in_place ? file_of(descriptor) : NULL;
    }
    int why = errno;
    free(name);
    errno = why;
    return file;
}

/* A link stays, and what it leads to is replaced. A file that may not be written is not replaced either. */
static FILE *replace_behind_links(const char *path, const struct stat *before) {
    char *target = access(path, W_OK) == 0 ? realpath(path, NULL) : NULL;
    FILE *file = target == NULL ? NULL : replace(target, before);
    int why = errno;
    free(target);
    errno = why;
    return file;
}

FILE *new_file_open(const char *path) {
    struct stat before;
    if (stat(path, &before) != 0) {
        return errno == ENOENT ? file_of(open(path, O_WRONLY | O_CREAT | O_CLOEXEC, READABLE_BY_ALL)) : NULL;
    }
    if (!S_ISREG(before.st_mode)) {
        return file_of(open(path, O_WRONLY | O_CLOEXEC));
    }
    return replace_behind_links(path, &before);
}

static bool write_all(int descriptor, const uint8_t *bytes, size_t length) {
    size_t written = 0;
    while (written < length) {
        ssize_t count = write(descriptor, bytes + written, length - written);
        if (count < 0 && errno != EINTR) {
            return false;
        }
        written += count > 0 ? (size_t)count : 0;
    }
    return true;
}

/* Closes a descriptor behind what was done with it, and gives the number of the first error. */
static int close_behind(int descriptor, bool is_done) {
    int error = is_done ? 0 : errno;
    bool is_closed = close(descriptor) == 0;
    return error == 0 && !is_closed ? errno : error;
}

/* Fills a new file of this name, and puts it into its place. The bytes are on the disk before the name is. */
static int fill(int descriptor, const char *name, const char *path, const struct stat *before, const uint8_t *bytes, size_t length) {
    bool has_permissions = before == NULL || fchmod(descriptor, before->st_mode & PERMISSIONS) == 0;
    int error = close_behind(descriptor, has_permissions && write_all(descriptor, bytes, length) && fsync(descriptor) == 0);
    if (error == 0 && rename(name, path) != 0) {
        error = errno;
    }
    if (error != 0) {
        (void)unlink(name); /* it is ours, and nobody has it yet */
    }
    return error;
}

/*
 * `before` is the file whose place is taken, NULL where there is none. A signal that would end the program waits meanwhile, so that no
 * part of a file is left beside.
 */
static int write_beside(const char *path, const struct stat *before, const uint8_t *bytes, size_t length) {
    size_t room = strlen(path) + MORE_LETTERS;
    char *name = malloc(room);
    if (name == NULL || !signals_hold()) {
        int why = errno;
        free(name);
        return why;
    }
    int descriptor = open_beside(path, name, room);
    int error = descriptor < 0 ? errno : fill(descriptor, name, path, before, bytes, length);
    (void)signals_release(); /* the mask is one that the system gave */
    free(name);
    return error;
}

static int write_behind_links(const char *path, const struct stat *before, const uint8_t *bytes, size_t length) {
    char *target = access(path, W_OK) == 0 ? realpath(path, NULL) : NULL;
    int error = target == NULL ? errno : write_beside(target, before, bytes, length);
    free(target);
    return error;
}

int new_file_write(const char *path, const uint8_t *bytes, size_t length) {
    struct stat before;
    if (stat(path, &before) != 0) {
        bool is_new = errno == ENOENT && lstat(path, &before) != 0; /* a link that leads nowhere is left alone */
        return is_new ? write_beside(path, NULL, bytes, length) : errno;
    }
    if (S_ISREG(before.st_mode)) {
        return write_behind_links(path, &before, bytes, length);
    }
    int descriptor = open(path, O_WRONLY | O_CLOEXEC);
    return descriptor < 0 ? errno : close_behind(descriptor, write_all(descriptor, bytes, length));
}
