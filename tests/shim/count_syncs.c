// Adds a byte to the file SYNCS at each call of fdatasync. To be loaded by LD_PRELOAD.
#include <fcntl.h>
#include <stdlib.h>
#include <sys/syscall.h>
#include <unistd.h>

int fdatasync(int file) {
    static int counted = -1;
    const char *name = getenv("SYNCS");
    if (counted < 0 && name) {
        counted = open(name, O_WRONLY | O_CREAT | O_APPEND, 0600);
    }
    if (counted < 0 || write(counted, ".", 1) != 1) {
        abort();
    }
    return (int)syscall(SYS_fdatasync, file);
}
