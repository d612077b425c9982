/* A calendar's clock that stands at SECONDS after 1970-01-01T00:00:00Z, for a program that is begun
   with this library in LD_PRELOAD. Its other clocks go on. */
#define _GNU_SOURCE
#include <stdlib.h>
#include <sys/syscall.h>
#include <time.h>
#include <unistd.h>

int clock_gettime(clockid_t clock, struct timespec *time) {
    const char *seconds = getenv("SECONDS");
    long done = syscall(SYS_clock_gettime, clock, time);
    if (done == 0 && clock == CLOCK_REALTIME && seconds)
        time->tv_sec = strtol(seconds, NULL, 10);
    return (int)done;
}
