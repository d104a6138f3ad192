// Makes each sync of a file take longer, as on a slow disk. To be loaded by LD_PRELOAD; SYNC_MS is by how many milliseconds.
#define _GNU_SOURCE
#include <dlfcn.h>
#include <stdlib.h>
#include <unistd.h>

static int slowly(const char *name, int fd) {
    int (*call)(int) = (int (*)(int))dlsym(RTLD_NEXT, name);
    const char *length = getenv("SYNC_MS");
    if (length != NULL)
        usleep(1000 * (useconds_t)atoi(length));
    return call(fd);
}

int fdatasync(int fd) {
    return slowly("fdatasync", fd);
}

int fsync(int fd) {
    return slowly("fsync", fd);
}
