// The file TRIGGER holds a number N, and so the N-th sync from then on fails with EIO; what was written stays where it is. To be loaded by LD_PRELOAD.
#include <errno.h>
#include <fcntl.h>
#include <stdio.h>
#include <stdlib.h>
#include <sys/syscall.h>
#include <unistd.h>

static int fails(void) {
    char text[16] = {0};
    const char *name = getenv("TRIGGER");
    int file = name == NULL ? -1 : open(name, O_RDWR), left = 0;
    if (file < 0)
        return 0;
    if (read(file, text, sizeof text - 1) > 0 && (left = atoi(text)) > 0) {
        int length = snprintf(text, sizeof text, "%d", left - 1);
        if (ftruncate(file, 0) != 0 || pwrite(file, text, (size_t)length, 0) != length)
            abort();
    }
    close(file);
    return left == 1;
}

int fdatasync(int file) {
    if (fails()) {
        errno = EIO;
        return -1;
    }
    return (int)syscall(SYS_fdatasync, file);
}
