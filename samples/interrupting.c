/* A library to be loaded before a program (LD_PRELOAD), in which every other read and every other write of the program fails as if a
 * signal had interrupted it. */
#define _GNU_SOURCE
#include <errno.h>
#include <stdatomic.h>
#include <sys/syscall.h>
#include <unistd.h>

static _Atomic unsigned long reads;
static _Atomic unsigned long writes;

/* Whether a call with such a count of calls before it fails. */
static int is_interrupted(_Atomic unsigned long *count) {
    if (atomic_fetch_add(count, 1) % 2) {
        return 0;
    }
    errno = EINTR;
    return 1;
}

ssize_t read(int file, void *bytes, size_t size) {
    return is_interrupted(&reads) ? -1 : syscall(SYS_read, file, bytes, size);
}

ssize_t write(int file, const void *bytes, size_t size) {
    return is_interrupted(&writes) ? -1 : syscall(SYS_write, file, bytes, size);
}
