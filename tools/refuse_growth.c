// Preloaded into a program, refuses one growth: the one whose number, from 1, is in REFUSED_GROWTH. If
// GROWTHS_OF_CALL is set, only growths between the program's first and second write to standard output count.
// A refusal writes one byte to descriptor 9, or to that in REFUSAL_MARK, so that its caller knows that there
// was one.
#define _GNU_SOURCE
#include <dlfcn.h>
#include <errno.h>
#include <stdatomic.h>
#include <stdlib.h>
#include <unistd.h>

static atomic_long left = 0;
static atomic_int writes = 0;
static int is_call = 0;
static int mark = 9;

static ssize_t (*real_write)(int, const void *, size_t);

__attribute__((constructor)) static void begin(void) {
    const char *number = getenv("REFUSED_GROWTH");
    real_write = dlsym(RTLD_NEXT, "write");
    is_call = getenv("GROWTHS_OF_CALL") != NULL;
    if (getenv("REFUSAL_MARK"))
        mark = atoi(getenv("REFUSAL_MARK"));
    left = number ? atol(number) : 0;
}

ssize_t write(int file, const void *bytes, size_t count) {
    if (file == 1)
        atomic_fetch_add(&writes, 1);
    return real_write(file, bytes, count);
}

// Whether the growth that is asked for now is the one.
static int is_refused(void) {
    if (is_call && atomic_load(&writes) != 1)
        return 0;
    if (atomic_load(&left) <= 0 || atomic_fetch_sub(&left, 1) != 1)
        return 0;
    real_write(mark, "r", 1);
    errno = ENOMEM;
    return 1;
}

void *malloc(size_t size) {
    static void *(*real)(size_t);
    if (!real)
        real = dlsym(RTLD_NEXT, "malloc");
    return is_refused() ? NULL : real(size);
}

void *realloc(void *block, size_t size) {
    static void *(*real)(void *, size_t);
    if (!real)
        real = dlsym(RTLD_NEXT, "realloc");
    return is_refused() ? NULL : real(block, size);
}

void *aligned_alloc(size_t alignment, size_t size) {
    static void *(*real)(size_t, size_t);
    if (!real)
        real = dlsym(RTLD_NEXT, "aligned_alloc");
    return is_refused() ? NULL : real(alignment, size);
}

int posix_memalign(void **block, size_t alignment, size_t size) {
    static int (*real)(void **, size_t, size_t);
    if (!real)
        real = dlsym(RTLD_NEXT, "posix_memalign");
    return is_refused() ? ENOMEM : real(block, alignment, size);
}
