// Preloaded into a program, sets the clock of the day back by an hour from when the file exists whose path is in SET_BACK.
#define _GNU_SOURCE
#include <stdlib.h>
#include <sys/syscall.h>
#include <time.h>
#include <unistd.h>

int clock_gettime(clockid_t clock, struct timespec *now) {
    const char *sign = getenv("SET_BACK");
    // By the system itself: a look for the library's function allocates, also while a checked build begins.
    int status = syscall(SYS_clock_gettime, clock, now);
    if (status == 0 && clock == CLOCK_REALTIME && sign && access(sign, F_OK) == 0)
        now->tv_sec -= 3600;
    return status;
}
