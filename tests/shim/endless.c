// Standard input without an end: each read of it gives one line feed. To be loaded by LD_PRELOAD; the reads are counted in the first eight bytes
// of the file that NOTED names, which is there and has as many.
#include <fcntl.h>
#include <stdint.h>
#include <stdlib.h>
#include <sys/mman.h>
#include <sys/syscall.h>
#include <sys/types.h>
#include <unistd.h>

static uint64_t *reads;

__attribute__((constructor)) static void begin(void) {
    const char *path = getenv("NOTED");
    int file = path == NULL ? -1 : open(path, O_RDWR);
    if (file >= 0) {
        void *shared = mmap(NULL, sizeof *reads, PROT_READ | PROT_WRITE, MAP_SHARED, file, 0);
        reads = shared == MAP_FAILED ? NULL : shared;
    }
}

ssize_t read(int file, void *bytes, size_t count) {
    if (file != 0)
        return syscall(SYS_read, file, bytes, count);
    if (reads != NULL)
        ++*reads;
    if (count == 0)
        return 0;
    *(char *)bytes = '\n';
    return 1;
}
