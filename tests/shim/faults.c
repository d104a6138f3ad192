// Fails one call of the system that a program makes of one file, or ends the program there. To be loaded by LD_PRELOAD; what it does is set
// by the environment. It stands in front of the calls of the C library that `invite store` makes.
//
//   FAULT_FILE   the file, by the path that the program gives. Its opening, that of FILE.unfinished and of their folder, each call on one of them and each
//                renaming of one is counted
//   FAULT_AT     the number of the call, from 1 on; none fails where it is 0 or left out
//   FAULT        the number of the error that the call answers; or `kill`: the program is ended by SIGKILL in place of the call;
//                or `torn`: the same, but half of what the call was to write is written before
//   FAULT_COUNT  a file for the number of calls that were made and the name of the one that failed, written when the program ends
#define _GNU_SOURCE
#include <dlfcn.h>
#include <errno.h>
#include <fcntl.h>
#include <signal.h>
#include <stdarg.h>
#include <stdio.h>
#include <stdlib.h>
#include <string.h>
#include <sys/stat.h>
#include <sys/syscall.h>
#include <sys/types.h>
#include <unistd.h>

#define MOST_DESCRIPTORS 1024
#define FOLDER 2

static char is_watched[MOST_DESCRIPTORS];
static long calls;
static const char *failed = "none";

// A renaming has to be one of a file whose writes are all synced, and is itself made durable by a sync of the folder. Where it isn't, the program
// is ended by SIGABRT: at the renaming, or at its end.
static int is_unsynced, is_renamed;

static int watched(int fd) {
    return fd >= 0 && fd < MOST_DESCRIPTORS ? is_watched[fd] : 0;
}

static void end_here(void) {
    kill(getpid(), SIGKILL);
    for (;;)
        pause();
}

// Counts a call, and tells whether it is the one that fails; then errno is set. Where the program is to be ended it doesn't return.
static int fails(const char *name, int is_write) {
    const char *at = getenv("FAULT_AT");
    const char *fault = getenv("FAULT");
    calls++;
    if (at == NULL || fault == NULL || atol(at) != calls)
        return 0;
    failed = name;
    if (strcmp(fault, "torn") == 0 && is_write)
        return 1;
    if (strcmp(fault, "kill") == 0 || strcmp(fault, "torn") == 0)
        end_here();
    errno = atoi(fault);
    return 1;
}

static int is_torn(void) {
    return strcmp(getenv("FAULT"), "torn") == 0;
}

// Whether the path is the file's, or that of the one that is made beside it; or that of the folder that holds them.
static int is_counted(const char *path) {
    const char *file = getenv("FAULT_FILE");
    const char *slash;
    if (file == NULL)
        return 0;
    slash = strrchr(file, '/');
    if (strncmp(path, file, strlen(file)) == 0)
        return path[strlen(file)] == 0 || strcmp(path + strlen(file), ".unfinished") == 0;
    if (slash != NULL && strlen(path) == (size_t)(slash - file) && strncmp(path, file, slash - file) == 0)
        return FOLDER;
    return 0;
}

int open(const char *path, int flags, ...) {
    int (*real)(const char *, int, mode_t) = (int (*)(const char *, int, mode_t))dlsym(RTLD_NEXT, "open");
    int counted = is_counted(path);
    mode_t mode = 0;
    int fd;
    if (flags & O_CREAT) {
        va_list more;
        va_start(more, flags);
        mode = va_arg(more, mode_t);
        va_end(more);
    }
    if (counted && fails("open", 0))
        return -1;
    fd = real(path, flags, mode);
    if (fd >= 0 && fd < MOST_DESCRIPTORS)
        is_watched[fd] = (char)counted;
    return fd;
}

// A call that answers 0, or -1 where it failed.
#define PLAIN(name, parameters, arguments)                                                                             \
    int name parameters {                                                                                              \
        int(*real) parameters = (int(*) parameters)dlsym(RTLD_NEXT, #name);                                            \
        if (watched(fd) && fails(#name, 0))                                                                            \
            return -1;                                                                                                 \
        return real arguments;                                                                                         \
    }

// A sync, after which all that was written or renamed is durable.
#define SYNC(name)                                                                                                     \
    int name(int fd) {                                                                                                 \
        int (*real)(int) = (int (*)(int))dlsym(RTLD_NEXT, #name);                                                      \
        if (watched(fd) && fails(#name, 0))                                                                            \
            return -1;                                                                                                 \
        if (watched(fd) == FOLDER)                                                                                     \
            is_renamed = 0;                                                                                            \
        else if (watched(fd))                                                                                          \
            is_unsynced = 0;                                                                                           \
        return real(fd);                                                                                               \
    }

SYNC(fsync)
SYNC(fdatasync)
PLAIN(flock, (int fd, int how), (fd, how))
PLAIN(statx, (int fd, const char *path, int flags, unsigned mask, struct statx *about), (fd, path, flags, mask, about))

int ftruncate(int fd, off_t length) {
    int (*real)(int, off_t) = (int (*)(int, off_t))dlsym(RTLD_NEXT, "ftruncate");
    if (watched(fd) && fails("ftruncate", 0))
        return -1;
    is_unsynced |= watched(fd);
    return real(fd, length);
}

int rename(const char *from, const char *to) {
    int (*real)(const char *, const char *) = (int (*)(const char *, const char *))dlsym(RTLD_NEXT, "rename");
    if (is_counted(from) && fails("rename", 0))
        return -1;
    if (is_counted(from) && is_unsynced)
        abort();
    is_renamed |= is_counted(from);
    return real(from, to);
}

off_t lseek(int fd, off_t offset, int whence) {
    off_t (*real)(int, off_t, int) = (off_t(*)(int, off_t, int))dlsym(RTLD_NEXT, "lseek");
    if (watched(fd) && fails("lseek", 0))
        return -1;
    return real(fd, offset, whence);
}

// A call that answers how many bytes it moved, or -1 where it failed.
#define MOVING(name, parameters, arguments, halved, is_write)                                                          \
    ssize_t name parameters {                                                                                          \
        ssize_t(*real) parameters = (ssize_t(*) parameters)dlsym(RTLD_NEXT, #name);                                    \
        if (watched(fd) && fails(#name, is_write)) {                                                                   \
            if (!is_torn())                                                                                            \
                return -1;                                                                                             \
            (void)!real halved;                                                                                        \
            end_here();                                                                                                \
        }                                                                                                              \
        if (is_write)                                                                                                  \
            is_unsynced |= watched(fd);                                                                                \
        return real arguments;                                                                                         \
    }

MOVING(write, (int fd, const void *from, size_t count), (fd, from, count), (fd, from, count / 2), 1)
MOVING(pwrite, (int fd, const void *from, size_t count, off_t at), (fd, from, count, at), (fd, from, count / 2, at), 1)
MOVING(pread, (int fd, void *into, size_t count, off_t at), (fd, into, count, at), (fd, into, count / 2, at), 0)

__attribute__((destructor)) static void tell_count(void) {
    const char *path = getenv("FAULT_COUNT");
    if (is_renamed && strcmp(failed, "none") == 0)
        abort();
    FILE *out = path == NULL ? NULL : fopen(path, "w");
    if (out != NULL) {
        fprintf(out, "%ld %s\n", calls, failed);
        fclose(out);
    }
}

// A program with threads ends so, and no destructor is run then.
void _exit(int status) {
    tell_count();
    syscall(SYS_exit_group, status);
    for (;;)
        pause();
}
