/* Refuses one request for memory of a process: that with the number in the environment's REFUSE, counted from 1. The
   library is loaded before the C library's own (LD_PRELOAD). Where COUNT names a file of eight bytes, the number of the
   requests is counted in it: a process may end without a word to its libraries. */
#define _GNU_SOURCE
#include <dlfcn.h>
#include <errno.h>
#include <fcntl.h>
#include <stdatomic.h>
#include <stddef.h>
#include <stdlib.h>
#include <sys/mman.h>

static atomic_long beside;
static atomic_long *requests = &beside;
static long refused;
static void *(*real_malloc)(size_t);
static void *(*real_realloc)(void *, size_t);

__attribute__((constructor)) static void begin(void) {
    const char *text = getenv("REFUSE");
    refused = text ? atol(text) : 0;
    real_malloc = dlsym(RTLD_NEXT, "malloc");
    real_realloc = dlsym(RTLD_NEXT, "realloc");
    const char *path = getenv("COUNT");
    int file = path ? open(path, O_RDWR) : -1;
    void *kept = file < 0 ? MAP_FAILED : mmap(NULL, sizeof *requests, PROT_READ | PROT_WRITE, MAP_SHARED, file, 0);
    if (kept != MAP_FAILED)
        requests = kept;
}

static int is_refused(void) {
    if (atomic_fetch_add(requests, 1) + 1 == refused) {
        errno = ENOMEM;
        return 1;
    }
    return 0;
}

void *malloc(size_t size) {
    if (!real_malloc)
        real_malloc = dlsym(RTLD_NEXT, "malloc");
    return is_refused() ? NULL : real_malloc(size);
}

void *realloc(void *old, size_t size) {
    if (!real_realloc)
        real_realloc = dlsym(RTLD_NEXT, "realloc");
    return is_refused() ? NULL : real_realloc(old, size);
}

int posix_memalign(void **out, size_t align, size_t size) {
    static int (*real)(void **, size_t, size_t);
    if (!real)
        real = dlsym(RTLD_NEXT, "posix_memalign");
    return is_refused() ? ENOMEM : real(out, align, size);
}
