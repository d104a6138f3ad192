// Lets each call that moves bytes of one file move a few of them alone, and interrupts every second one. To be loaded by LD_PRELOAD; what it does is
// set by the environment. A call for no more bytes than that isn't shortened.
//
//   SHORT_FILE   the file, by the path that the program gives, and FILE.unfinished, which is made beside it
//   SHORT_MOST   how many bytes a read or a write moves at most. Where it is 0, each write answers that it took none
//   SHORT_COUNT  a file for the number of calls that were interrupted or moved less than they were asked to, written when the program ends
#define _GNU_SOURCE
#include <dlfcn.h>
#include <errno.h>
#include <fcntl.h>
#include <stdarg.h>
#include <stdio.h>
#include <stdlib.h>
#include <string.h>
#include <sys/syscall.h>
#include <sys/types.h>
#include <unistd.h>

#define MOST_DESCRIPTORS 1024

static char is_watched[MOST_DESCRIPTORS];
static long calls, disturbed;

static int watched(int fd) {
    return fd >= 0 && fd < MOST_DESCRIPTORS && is_watched[fd];
}

int open(const char *path, int flags, ...) {
    int (*real)(const char *, int, mode_t) = (int (*)(const char *, int, mode_t))dlsym(RTLD_NEXT, "open");
    const char *file = getenv("SHORT_FILE");
    mode_t mode = 0;
    int fd;
    if (flags & O_CREAT) {
        va_list more;
        va_start(more, flags);
        mode = va_arg(more, mode_t);
        va_end(more);
    }
    fd = real(path, flags, mode);
    if (fd >= 0 && fd < MOST_DESCRIPTORS)
        is_watched[fd] = file != NULL && strncmp(path, file, strlen(file)) == 0 && (path[strlen(file)] == 0 || strcmp(path + strlen(file), ".unfinished") == 0);
    return fd;
}

// A call is interrupted, or it is cut down to this many bytes.
static ssize_t most(size_t count) {
    size_t few = (size_t)atol(getenv("SHORT_MOST"));
    if (calls++ % 2 == 0) {
        disturbed++;
        errno = EINTR;
        return -1;
    }
    disturbed += count > few;
    return (ssize_t)(count > few ? few : count);
}

#define MOVING(name, parameters, arguments)                                                                            \
    ssize_t name parameters {                                                                                          \
        ssize_t(*real) parameters = (ssize_t(*) parameters)dlsym(RTLD_NEXT, #name);                                    \
        if (watched(fd)) {                                                                                             \
            ssize_t few = most(count);                                                                                 \
            if (few <= 0)                                                                                              \
                return few;                                                                                            \
            count = (size_t)few;                                                                                       \
        }                                                                                                              \
        return real arguments;                                                                                         \
    }

MOVING(write, (int fd, const void *from, size_t count), (fd, from, count))
MOVING(pwrite, (int fd, const void *from, size_t count, off_t at), (fd, from, count, at))
MOVING(pread, (int fd, void *into, size_t count, off_t at), (fd, into, count, at))

__attribute__((destructor)) static void tell_count(void) {
    const char *path = getenv("SHORT_COUNT");
    FILE *out = path == NULL ? NULL : fopen(path, "w");
    if (out != NULL) {
        fprintf(out, "%ld\n", disturbed);
        fclose(out);
    }
}

// A program with threads ends so, and no destructor is run then.
void _exit(int status) {
    tell_count();
    syscall(SYS_exit_group, status);
    for (;;)
        ;
}
