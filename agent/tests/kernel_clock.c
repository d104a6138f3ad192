// The kernel says of the clock what CLOCK_STATUS names. To be loaded by LD_PRELOAD.
#include <stdlib.h>
#include <sys/timex.h>

int adjtimex(struct timex *asked) {
    asked->status = atoi(getenv("CLOCK_STATUS"));
    return asked->status & STA_UNSYNC ? TIME_ERROR : TIME_OK;
}
