/* Linked into the host for a test: a system that gives no random bits. */
#include <errno.h>
#include <sys/random.h>

int getentropy(void *buffer, size_t length) {
    (void)buffer;
    (void)length;
    errno = ENOSYS;
    return -1;
}
