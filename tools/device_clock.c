/* Makes files clocks: what the program that it is loaded into by LD_PRELOAD reads of the clock of an open file, as of the device of a hardware
 * clock, is the real-time clock, ahead by as many nanoseconds as the file says. The clock of a file that says none can't be read, as that of a
 * file that is no such device. */
#define _GNU_SOURCE
#include <errno.h>
#include <stdlib.h>
#include <sys/syscall.h>
#include <time.h>
#include <unistd.h>

enum { KIND_BITS = 3, KINDS = 7, OF_FILE = 3, TEXT_BYTES = 32 };

static const long long SECOND = 1000000000;

int clock_gettime(clockid_t clock, struct timespec *time) {
    if (clock >= 0) return (int)syscall(SYS_clock_gettime, clock, time);
    char text[TEXT_BYTES], *end = text;
    ssize_t length = (clock & KINDS) == OF_FILE ? pread(~(clock >> KIND_BITS), text, sizeof text - 1, 0) : -1;
    text[length < 0 ? 0 : length] = 0;
    long long ahead = strtoll(text, &end, 10);
    if (end == text) {
        errno = EINVAL;
        return -1;
    }
    int status = (int)syscall(SYS_clock_gettime, CLOCK_REALTIME, time);
    long long shown = time->tv_sec * SECOND + time->tv_nsec + ahead;
    time->tv_sec = shown / SECOND;
    time->tv_nsec = shown % SECOND;
    return status;
}
