/* A library to be loaded before a program (LD_PRELOAD), which refuses one of the program's requests for memory.
 *
 * REFUSE_AT is the number of the request that is refused, counted from 1 over all threads; 0 or no such variable refuses none.
 * REFUSE_COUNT names a file of 8 bytes, which has the number of requests so far. */
#define _GNU_SOURCE
#include <errno.h>
#include <fcntl.h>
#include <stdatomic.h>
#include <stddef.h>
#include <stdlib.h>
#include <sys/mman.h>
#include <unistd.h>

extern void *__libc_malloc(size_t size);
extern void *__libc_calloc(size_t count, size_t size);
extern void *__libc_realloc(void *block, size_t size);
extern void *__libc_memalign(size_t alignment, size_t size);

static _Atomic unsigned long own_count;
static _Atomic unsigned long *count = &own_count;
static unsigned long refused;

/* Begins to count, once the program is loaded. */
__attribute__((constructor)) static void begin(void) {
    const char *at = getenv("REFUSE_AT");
    const char *path = getenv("REFUSE_COUNT");
    if (path) {
        int file = open(path, O_RDWR);
        void *shared = file < 0 ? MAP_FAILED : mmap(NULL, 8, PROT_READ | PROT_WRITE, MAP_SHARED, file, 0);
        if (shared != MAP_FAILED) {
            count = shared;
        }
        if (file >= 0) {
            close(file);
        }
    }
    atomic_store(count, 0);
    refused = at ? strtoul(at, NULL, 10) : 0;
}

/* Whether this request is the one to be refused. */
static int is_refused(void) {
    if (atomic_fetch_add(count, 1) + 1 != refused) {
        return 0;
    }
    errno = ENOMEM;
    return 1;
}

void *malloc(size_t size) {
    return is_refused() ? NULL : __libc_malloc(size);
}

void *calloc(size_t items, size_t size) {
    return is_refused() ? NULL : __libc_calloc(items, size);
}

void *realloc(void *block, size_t size) {
    return is_refused() ? NULL : __libc_realloc(block, size);
}

void *aligned_alloc(size_t alignment, size_t size) {
    return is_refused() ? NULL : __libc_memalign(alignment, size);
}

int posix_memalign(void **block, size_t alignment, size_t size) {
    if (is_refused()) {
        return ENOMEM;
    }
    *block = __libc_memalign(alignment, size);
    return *block ? 0 : ENOMEM;
}
