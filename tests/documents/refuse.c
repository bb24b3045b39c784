/* Preloaded, refuses the nth growth of memory of a process, counted from 1 (REFUSE=n), and writes `!` to standard error there. */
#define _GNU_SOURCE
#include <dlfcn.h>
#include <errno.h>
#include <stdlib.h>
#include <unistd.h>

static long left = 0;
static void *(*next_malloc)(size_t);
static void *(*next_realloc)(void *, size_t);
static void *(*next_aligned)(size_t, size_t);
static int (*next_memalign)(void **, size_t, size_t);

__attribute__((constructor)) static void start(void) {
    next_malloc = dlsym(RTLD_NEXT, "malloc");
    next_realloc = dlsym(RTLD_NEXT, "realloc");
    next_aligned = dlsym(RTLD_NEXT, "aligned_alloc");
    next_memalign = dlsym(RTLD_NEXT, "posix_memalign");
    char *n = getenv("REFUSE");
    left = n ? atol(n) : 0;
}

static int refused(void) {
    if (left <= 0 || --left > 0) return 0;
    if (write(2, "!", 1) < 0) abort();
    errno = ENOMEM;
    return 1;
}

void *malloc(size_t size) {
    if (!next_malloc) next_malloc = dlsym(RTLD_NEXT, "malloc");
    return refused() ? NULL : next_malloc(size);
}

void *realloc(void *old, size_t size) {
    if (!next_realloc) next_realloc = dlsym(RTLD_NEXT, "realloc");
    return refused() ? NULL : next_realloc(old, size);
}

void *aligned_alloc(size_t align, size_t size) { return refused() ? NULL : next_aligned(align, size); }

int posix_memalign(void **at, size_t align, size_t size) { return refused() ? ENOMEM : next_memalign(at, align, size); }
