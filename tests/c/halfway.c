/* Put in front of the C library (LD_PRELOAD), so that reading and writing go as they rarely go: a read gives at most 16
 * bytes and a write takes at most 5; the read with the number READ_FAILS and all later ones fail, and so does the write
 * with the number WRITE_FAILS. */
#define _GNU_SOURCE
#include <errno.h>
#include <stdlib.h>
#include <sys/syscall.h>
#include <unistd.h>

/* Whether the call with this number is to fail. */
static int fails(const char *name, long number) {
    const char *first = getenv(name);
    if (first == NULL || number < atol(first)) {
        return 0;
    }
    errno = EIO;
    return 1;
}

ssize_t read(int file, void *bytes, size_t length) {
    static long number;
    return fails("READ_FAILS", ++number) ? -1 : syscall(SYS_read, file, bytes, length < 16 ? length : 16);
}

ssize_t write(int file, const void *bytes, size_t length) {
    static long number;
    /* Standard error stays as it is, so that what went wrong can be told. */
    if (file == STDERR_FILENO) {
        return syscall(SYS_write, file, bytes, length);
    }
    return fails("WRITE_FAILS", ++number) ? -1 : syscall(SYS_write, file, bytes, length < 5 ? length : 5);
}
