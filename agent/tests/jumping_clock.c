// The clock of the day is set each second: by an hour forward, by another one, and by both back. To be loaded by LD_PRELOAD.
#define _GNU_SOURCE
#include <sys/syscall.h>
#include <time.h>
#include <unistd.h>

int clock_gettime(clockid_t clock, struct timespec *now) {
    struct timespec up = {0, 0};
    int status = (int)syscall(SYS_clock_gettime, clock, now);
    if (clock == CLOCK_REALTIME && syscall(SYS_clock_gettime, CLOCK_MONOTONIC, &up) == 0)
        now->tv_sec += 3600 * (up.tv_sec % 3);
    return status;
}
