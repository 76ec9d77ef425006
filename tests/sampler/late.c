/* Gives a program that asks for the clock a second more each time, as a busy machine does; for LD_PRELOAD. */
#include <time.h>

int clock_gettime(clockid_t clock, struct timespec *out) {
    static time_t seconds;
    (void)clock;
    *out = (struct timespec){.tv_sec = ++seconds};
    return 0;
}
