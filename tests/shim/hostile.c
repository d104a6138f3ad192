// Refuses one allocation, or ends the program at one of the calls that write to its file. To be loaded by LD_PRELOAD; what it does is set by
// the environment. Nothing is freed of what was refused, so a program that goes on has all that it had.
//
//   REFUSE_AT    the number of the allocation, from 1 on, that answers NULL; none does where it is 0 or left out
//   REFUSE_ALL   each later allocation is refused, too
//   END_AT       the number of the pwrite or fdatasync, from 1 on, in place of which the program is ended by SIGKILL
//   NOTED        a file for what was called: a line `write SECTOR` or `sync` for each of the latter, and at the end `allocations N`
#define _GNU_SOURCE
#include <dlfcn.h>
#include <errno.h>
#include <fcntl.h>
#include <signal.h>
#include <stdio.h>
#include <stdlib.h>
#include <string.h>
#include <sys/syscall.h>
#include <sys/types.h>
#include <unistd.h>

extern void *__libc_malloc(size_t size);
extern void *__libc_realloc(void *held, size_t size);

static long allocations;
static long refused_at = -1;
static int refuses_all;
static long calls;
static int noted = -1;

static void learn(void) {
    const char *at = getenv("REFUSE_AT");
    refuses_all = getenv("REFUSE_ALL") != NULL;
    refused_at = at == NULL ? 0 : atol(at);
}

// Counts an allocation, and tells whether it is refused.
static int is_refused(void) {
    if (refused_at < 0)
        learn();
    allocations++;
    if (refused_at == 0 || allocations < refused_at || (allocations > refused_at && !refuses_all))
        return 0;
    errno = ENOMEM;
    return 1;
}

void *malloc(size_t size) {
    return is_refused() ? NULL : __libc_malloc(size);
}

void *realloc(void *held, size_t size) {
    return is_refused() ? NULL : __libc_realloc(held, size);
}

static void note(const char *line) {
    const char *path = getenv("NOTED");
    if (path == NULL)
        return;
    if (noted < 0)
        noted = open(path, O_WRONLY | O_CREAT | O_TRUNC, 0600);
    (void)!write(noted, line, strlen(line));
}

// Counts a call that writes, tells it, and ends the program in its place where that was asked.
static void count(const char *line) {
    const char *at = getenv("END_AT");
    calls++;
    note(line);
    if (at == NULL || atol(at) != calls)
        return;
    kill(getpid(), SIGKILL);
    for (;;)
        pause();
}

ssize_t pwrite(int fd, const void *from, size_t size, off_t at) {
    ssize_t (*real)(int, const void *, size_t, off_t) = (ssize_t(*)(int, const void *, size_t, off_t))dlsym(RTLD_NEXT, "pwrite");
    char line[64];
    snprintf(line, sizeof line, "write %lld\n", (long long)at / 512);
    count(line);
    return real(fd, from, size, at);
}

int fdatasync(int fd) {
    int (*real)(int) = (int (*)(int))dlsym(RTLD_NEXT, "fdatasync");
    count("sync\n");
    return real(fd);
}

__attribute__((destructor)) static void tell_count(void) {
    char line[64];
    snprintf(line, sizeof line, "allocations %ld\n", allocations);
    note(line);
}

// A program with threads ends so, and no destructor is run then.
void _exit(int status) {
    tell_count();
    syscall(SYS_exit_group, status);
    for (;;)
        pause();
}
