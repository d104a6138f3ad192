// A socket gets no more room for what comes than where net.core.rmem_max is 212,992, Linux's default. To be loaded by LD_PRELOAD.
#define _GNU_SOURCE
#include <sys/socket.h>
#include <sys/syscall.h>
#include <unistd.h>

int setsockopt(int socket, int level, int name, const void *value, socklen_t length) {
    int least = 212992;
    if (level == SOL_SOCKET && name == SO_RCVBUF && length == sizeof least && *(const int *)value > least)
        value = &least;
    return (int)syscall(SYS_setsockopt, socket, level, name, value, length);
}
