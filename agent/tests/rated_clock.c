/* Has CLOCK_BOOTTIME go RATE_MILLIONTHS / 1,000,000 times as fast from RATE_FROM nanoseconds on, in whatever is started with it. */
#define _GNU_SOURCE
#include <stdlib.h>
#include <sys/syscall.h>
#include <time.h>
#include <unistd.h>

int clock_gettime(clockid_t clock, struct timespec *at) {
    long status = syscall(SYS_clock_gettime, clock, at);
    const char *from = getenv("RATE_FROM"), *rate = getenv("RATE_MILLIONTHS");
    if (status == 0 && clock == CLOCK_BOOTTIME && from && rate) {
        long long begin = atoll(from), now = at->tv_sec * 1000000000LL + at->tv_nsec;
        now = begin + (long long)((__int128)(now - begin) * atoll(rate) / 1000000);
        at->tv_sec = now / 1000000000LL;
        at->tv_nsec = now % 1000000000LL;
    }
    return (int)status;
}
