// Preloaded into a program, refuses it threads: the first as many as STARTED says are started, and of the further ones
// so many are refused as REFUSED says, or all where it doesn't. If REFUSED_WHILE is set, none is refused once the file of
// that name is gone.
#define _GNU_SOURCE
#include <dlfcn.h>
#include <errno.h>
#include <pthread.h>
#include <stdatomic.h>
#include <stdlib.h>
#include <unistd.h>

static atomic_long count = 0;

static int is_refused(void) {
    const char *started = getenv("STARTED"), *refused = getenv("REFUSED"), *sign = getenv("REFUSED_WHILE");
    if (sign && access(sign, F_OK) != 0)
        return 0;
    long first = started ? atol(started) : 0;
    long number = atomic_fetch_add(&count, 1);
    return first <= number && (!refused || number < first + atol(refused));
}

int pthread_create(pthread_t *thread, const pthread_attr_t *attributes, void *(*run)(void *), void *given) {
    int (*real)(pthread_t *, const pthread_attr_t *, void *(*)(void *), void *) = dlsym(RTLD_NEXT, "pthread_create");
    return is_refused() ? EAGAIN : real(thread, attributes, run, given);
}
