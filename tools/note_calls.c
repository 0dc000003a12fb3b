/* Notes calls of the program that it is loaded into by LD_PRELOAD, a line each, at the end of the file that NOTES names: what is synced,
 * renamed and opened (`fsync PATH`, `rename FROM TO`, `open PATH`), each once it was done, that a connection sends at once (`nodelay`), and how
 * long something is waited for at most, in nanoseconds: by a socket (`receive N`, `send N`), asleep (`sleep N`), for descriptors (`poll N`)
 * and for other threads (`park N`). Linux on x86-64 alone. */
#define _GNU_SOURCE
#include <errno.h>
#include <fcntl.h>
#include <linux/futex.h>
#include <netinet/in.h>
#include <netinet/tcp.h>
#include <poll.h>
#include <stdarg.h>
#include <stdio.h>
#include <stdlib.h>
#include <string.h>
#include <sys/epoll.h>
#include <sys/socket.h>
#include <sys/syscall.h>
#include <sys/time.h>
#include <time.h>
#include <unistd.h>

#ifndef __x86_64__
#error "calls are made by the instruction of x86-64"
#endif

enum { LINE_BYTES = 8300, PATH_BYTES = 4096 };

static const long long SECOND = 1000000000, THOUSAND = 1000, MILLION = 1000000;

/* A call of the system's as it is, with its error as a negative number. */
static long called(long number, long a, long b, long c, long d, long e, long f) {
    long answer;
    register long fourth __asm__("r10") = d, fifth __asm__("r8") = e, sixth __asm__("r9") = f;
    __asm__ volatile("syscall"
                     : "=a"(answer)
                     : "a"(number), "D"(a), "S"(b), "d"(c), "r"(fourth), "r"(fifth), "r"(sixth)
                     : "rcx", "r11", "memory");
    return answer;
}

static long answered(long answer) {
    if (answer >= 0 || answer < -4095) return answer;
    errno = (int)-answer;
    return -1;
}

__attribute__((format(printf, 1, 2))) static void note(const char *form, ...) {
    const char *path = getenv("NOTES");
    char line[LINE_BYTES];
    va_list values;
    va_start(values, form);
    int length = vsnprintf(line, sizeof line, form, values);
    va_end(values);
    long file = path ? called(SYS_open, (long)path, O_WRONLY | O_APPEND | O_CREAT | O_CLOEXEC, 0644, 0, 0, 0) : -1;
    if (file < 0 || length < 0) return;
    called(SYS_write, file, (long)line, length < (int)sizeof line ? length : (int)sizeof line - 1, 0, 0, 0);
    called(SYS_close, file, 0, 0, 0, 0, 0);
}

static long long nanoseconds_in(const struct timespec *time) {
    return time->tv_sec * SECOND + time->tv_nsec;
}

static int synced(const char *name, long number, int file) {
    char link[32], path[PATH_BYTES];
    snprintf(link, sizeof link, "/proc/self/fd/%d", file);
    long length = called(SYS_readlink, (long)link, (long)path, sizeof path - 1, 0, 0, 0);
    path[length < 0 ? 0 : length] = 0;
    long answer = called(number, file, 0, 0, 0, 0, 0);
    if (answer == 0) note("%s %s\n", name, path);
    return (int)answered(answer);
}

int fsync(int file) { return synced("fsync", SYS_fsync, file); }

int fdatasync(int file) { return synced("fdatasync", SYS_fdatasync, file); }

int rename(const char *from, const char *to) {
    long answer = called(SYS_rename, (long)from, (long)to, 0, 0, 0, 0);
    if (answer == 0) note("rename %s %s\n", from, to);
    return (int)answered(answer);
}

int open(const char *path, int flags, ...) {
    va_list rest;
    va_start(rest, flags);
    long mode = flags & (O_CREAT | O_TMPFILE) ? va_arg(rest, int) : 0;
    va_end(rest);
    long answer = called(SYS_open, (long)path, flags, mode, 0, 0, 0);
    if (answer >= 0) note("open %s\n", path);
    return (int)answered(answer);
}

int setsockopt(int door, int level, int name, const void *value, socklen_t length) {
    if (level == SOL_SOCKET && (name == SO_RCVTIMEO || name == SO_SNDTIMEO) && length == sizeof(struct timeval)) {
        struct timeval wait;
        memcpy(&wait, value, sizeof wait);
        note("%s %lld\n", name == SO_RCVTIMEO ? "receive" : "send", wait.tv_sec * SECOND + wait.tv_usec * THOUSAND);
    }
    if (level == IPPROTO_TCP && name == TCP_NODELAY && length == sizeof(int) && *(const int *)value) note("nodelay\n");
    return (int)answered(called(SYS_setsockopt, door, level, name, (long)value, length, 0));
}

int nanosleep(const struct timespec *wanted, struct timespec *left) {
    note("sleep %lld\n", nanoseconds_in(wanted));
    return (int)answered(called(SYS_nanosleep, (long)wanted, (long)left, 0, 0, 0, 0));
}

int poll(struct pollfd *doors, nfds_t number, int wait) {
    if (wait > 0) note("poll %lld\n", wait * MILLION);
    return (int)answered(called(SYS_poll, (long)doors, (long)number, wait, 0, 0, 0));
}

int epoll_wait(int door, struct epoll_event *events, int most, int wait) {
    if (wait > 0) note("poll %lld\n", wait * MILLION);
    return (int)answered(called(SYS_epoll_wait, door, (long)events, most, wait, 0, 0));
}

long syscall(long number, ...) {
    long words[6];
    va_list rest;
    va_start(rest, number);
    for (int at = 0; at < 6; at++) words[at] = va_arg(rest, long);
    va_end(rest);
    if (number == SYS_futex && ((words[1] & FUTEX_CMD_MASK) == FUTEX_WAIT || (words[1] & FUTEX_CMD_MASK) == FUTEX_WAIT_BITSET) && words[3])
        note("park %lld\n", nanoseconds_in((const struct timespec *)(size_t)words[3]));
    return answered(called(number, words[0], words[1], words[2], words[3], words[4], words[5]));
}
