/* A steady clock that goes on by STEP milliseconds each time that it is read, and else stands
   still, for a program that is begun with this library in LD_PRELOAD. What the program writes to
   its standard output and its standard error comes into the file WRITTEN, too: a line with the
   stream and the clock's milliseconds, and then what was written. */
#define _GNU_SOURCE
#include <fcntl.h>
#include <stdio.h>
#include <stdlib.h>
#include <sys/syscall.h>
#include <time.h>
#include <unistd.h>

static long step, now;
static int written = -1;

__attribute__((constructor)) static void begin(void) {
    const char *each = getenv("STEP"), *name = getenv("WRITTEN");
    int file = name ? open(name, O_WRONLY | O_CREAT | O_APPEND, 0600) : -1;
    step = each ? strtol(each, NULL, 10) : 0;
    /* in the place of no stream */
    written = fcntl(file, F_DUPFD_CLOEXEC, 100);
    close(file);
}

int clock_gettime(clockid_t clock, struct timespec *time) {
    if (clock != CLOCK_MONOTONIC)
        return syscall(SYS_clock_gettime, clock, time);
    now += step;
    time->tv_sec = now / 1000;
    time->tv_nsec = now % 1000 * 1000000;
    return 0;
}

ssize_t write(int stream, const void *bytes, size_t count) {
    if (stream == 1 || stream == 2)
        dprintf(written, "%d %ld\n%.*s", stream, now, (int)count, (const char *)bytes);
    return syscall(SYS_write, stream, bytes, count);
}
