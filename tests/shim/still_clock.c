// A clock that stands: whatever a program does takes it no time. To be loaded by LD_PRELOAD.
#define _GNU_SOURCE
#include <time.h>

int clock_gettime(clockid_t clock, struct timespec *now) {
    (void)clock;
    now->tv_sec = 1;
    now->tv_nsec = 0;
    return 0;
}
