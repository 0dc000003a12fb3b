/* Spoils calls of the program that it is loaded into, each kind for as long as a file of its name is in the folder that SPOIL names:
 * the clocks show ten seconds less (`clock`), no packet is received (`receive`), none is sent to port N (`send-N`), sending one lasts
 * until the file is gone (`sending`), and so do a rename (`rename`), a write at a place of a file (`writing`), a look for the addresses
 * of a name (`lookup`) and a look at the real-time clock (`telling`); a connection takes seven bytes at a time (`few`); there are no
 * random bytes (`random`), no IPv6 (`six`) and no memory (`memory`); a sleep lasts a hundredth of its time (`hasty`). No change of what
 * is waited for is taken (`watch`), and none of that is waited for (`events`). Each look for addresses adds a byte to the file `lookups`,
 * if it is there, and finds those that the file `addresses` has, if that is there; each reading of the machine's clock adds one to
 * `readings`. It stands before the C library by LD_PRELOAD.
 *
 * Others say in their file what is shown. `course` has lines FROM SHOWN RATE, in nanoseconds and parts per million: once
 * CLOCK_MONOTONIC_RAW shows FROM it shows SHOWN, and runs by RATE faster; so it stands still by a RATE of -1000000. CLOCK_MONOTONIC turns
 * alike, at the same moment and by as much; `slew` has such lines for it alone. CLOCK_BOOTTIME shows what that shows, as if the host had
 * never slept, and as many nanoseconds more as `boot` says; it cannot be read by `no-boot`. `timens` is what stands in
 * /proc/self/timens_offsets, which is not there by `no-timens`. `unread` has a sign for each reading of the machine's clock from when it
 * is there: that of an x fails, and behind its end the last sign counts. `date` has the nanoseconds since 1970 that the real-time clock
 * shows. All programs that have the same folder see the same clocks. A program's clock as a machine is CLOCK_MONOTONIC until it has read
 * CLOCK_MONOTONIC_RAW, and that from then on. */
#define _GNU_SOURCE
#include <dlfcn.h>
#include <errno.h>
#include <fcntl.h>
#include <netdb.h>
#include <netinet/in.h>
#include <stdarg.h>
#include <stdatomic.h>
#include <stdio.h>
#include <stdlib.h>
#include <string.h>
#include <sys/epoll.h>
#include <sys/socket.h>
#include <sys/syscall.h>
#include <time.h>
#include <unistd.h>

extern void *__libc_malloc(size_t);
extern void *__libc_calloc(size_t, size_t);
extern void *__libc_realloc(void *, size_t);
extern void *__libc_memalign(size_t, size_t);

enum { PATH_BYTES = 4096, FEW = 7 };

static const long long SECOND = 1000000000, MILLION = 1000000, LESS = 10000000000;

/* The path of the file of a kind, or an empty one. */
static const char *path_of(const char *kind, char path[PATH_BYTES]) {
    const char *folder = getenv("SPOIL");
    path[0] = 0;
    if (folder) snprintf(path, PATH_BYTES, "%s/%s", folder, kind);
    return path;
}

static int is_spoiled(const char *kind) {
    char path[PATH_BYTES];
    int error = errno, is_there = access(path_of(kind, path), F_OK) == 0;
    errno = error;
    return is_there;
}

static void last(const char *kind) {
    while (is_spoiled(kind)) usleep(2000);
}

static int is_datagram(int file) {
    int type = 0;
    socklen_t length = sizeof type;
    return getsockopt(file, SOL_SOCKET, SO_TYPE, &type, &length) == 0 && type == SOCK_DGRAM;
}

/* What the file of a kind has, cut at `size` bytes; -1 where it is not there. */
static ssize_t content_of(const char *kind, char *place, size_t size) {
    char path[PATH_BYTES];
    int error = errno, file = (int)syscall(SYS_openat, AT_FDCWD, path_of(kind, path), O_RDONLY | O_CLOEXEC);
    ssize_t length = file < 0 ? -1 : syscall(SYS_read, file, place, size);
    if (file >= 0) syscall(SYS_close, file);
    errno = error;
    return length;
}

static long long nanoseconds_in(struct timespec time) {
    return time.tv_sec * SECOND + time.tv_nsec;
}

static long long system_shows(clockid_t clock) {
    struct timespec time = {0, 0};
    syscall(SYS_clock_gettime, clock, &time);
    return nanoseconds_in(time);
}

/* How far CLOCK_MONOTONIC of the system is ahead of CLOCK_MONOTONIC_RAW: it is slewed. */
static long long lead;

__attribute__((constructor)) static void look_at_lead(void) {
    lead = system_shows(CLOCK_MONOTONIC) - system_shows(CLOCK_MONOTONIC_RAW);
}

/* How far a clock is ahead by the lines of a kind where CLOCK_MONOTONIC_RAW of the system shows `now`. */
static long long ahead_by(const char *kind, long long now) {
    char text[PATH_BYTES];
    ssize_t length = content_of(kind, text, sizeof text - 1);
    long long from, shown, rate, ahead = 0;
    int used;
    text[length < 0 ? 0 : length] = 0;
    for (const char *rest = text; sscanf(rest, "%lld %lld %lld%n", &from, &shown, &rate, &used) == 3 && from <= now; rest += used)
        ahead = shown - from + (now - from) * rate / MILLION;
    return ahead;
}

/* The number in the file of a kind, or else this one. */
static long long number_in(const char *kind, long long otherwise) {
    char text[32];
    ssize_t length = content_of(kind, text, sizeof text - 1);
    text[length < 0 ? 0 : length] = 0;
    return length > 0 ? atoll(text) : otherwise;
}

/* What a clock shows where that of the system shows `now`. */
static long long shown_by(clockid_t clock, long long now) {
    if (clock == CLOCK_REALTIME) return number_in("date", now);
    if (clock == CLOCK_BOOTTIME) return shown_by(CLOCK_MONOTONIC, system_shows(CLOCK_MONOTONIC)) + number_in("boot", 0);
    if (clock != CLOCK_MONOTONIC && clock != CLOCK_MONOTONIC_RAW) return now;
    long long less = is_spoiled("clock") ? LESS : 0;
    if (clock == CLOCK_MONOTONIC_RAW) return now + ahead_by("course", now) - less;
    return now + ahead_by("course", now - lead) + ahead_by("slew", now - lead) - less;
}

/* Adds a byte to the file of a kind, if it is there. */
static void count_in(const char *kind) {
    char path[PATH_BYTES];
    int error = errno, file = (int)syscall(SYS_openat, AT_FDCWD, path_of(kind, path), O_WRONLY | O_APPEND | O_CLOEXEC);
    if (file >= 0) syscall(SYS_write, file, ".", 1);
    if (file >= 0) syscall(SYS_close, file);
    errno = error;
}

/* Whether this reading of the machine's clock fails. */
static int is_unread(void) {
    static atomic_long readings;
    char signs[PATH_BYTES];
    ssize_t length = content_of("unread", signs, sizeof signs);
    if (length <= 0) {
        readings = 0;
        return 0;
    }
    long number = readings++;
    return signs[number < length ? number : length - 1] == 'x';
}

/* Whether the program measures by this clock as a machine. */
static int is_machines(clockid_t clock) {
    static atomic_int is_raw;
    if (clock == CLOCK_MONOTONIC_RAW) is_raw = 1;
    return clock == CLOCK_MONOTONIC_RAW || (clock == CLOCK_MONOTONIC && !is_raw);
}

int clock_gettime(clockid_t clock, struct timespec *time) {
    if (clock == CLOCK_REALTIME) last("telling");
    int is_timed = is_machines(clock);
    if (is_timed) count_in("readings");
    if ((is_timed && is_unread()) || (clock == CLOCK_BOOTTIME && is_spoiled("no-boot"))) { errno = EINVAL; return -1; }
    int status = (int)syscall(SYS_clock_gettime, clock, time);
    if (status == 0) {
        long long shown = shown_by(clock, nanoseconds_in(*time));
        time->tv_sec = shown / SECOND;
        time->tv_nsec = shown % SECOND;
    }
    return status;
}

int open(const char *path, int flags, ...) {
    char shown[PATH_BYTES];
    va_list rest;
    va_start(rest, flags);
    int mode = flags & (O_CREAT | O_TMPFILE) ? va_arg(rest, int) : 0;
    va_end(rest);
    if (strstr(path, "/timens_offsets") && is_spoiled("no-timens")) { errno = ENOENT; return -1; }
    if (strstr(path, "/timens_offsets") && is_spoiled("timens")) path = path_of("timens", shown);
    return (int)syscall(SYS_openat, AT_FDCWD, path, flags, mode);
}

ssize_t pwrite(int file, const void *bytes, size_t size, off_t from) {
    last("writing");
    return syscall(SYS_pwrite64, file, bytes, size, from);
}

ssize_t recvfrom(int file, void *place, size_t size, int flags, struct sockaddr *address, socklen_t *length) {
    if (is_datagram(file) && is_spoiled("receive")) { errno = EBADF; return -1; }
    return syscall(SYS_recvfrom, file, place, size, flags, address, length);
}

ssize_t sendto(int file, const void *bytes, size_t size, int flags, const struct sockaddr *address, socklen_t length) {
    if (is_datagram(file) && address && address->sa_family == AF_INET) {
        char kind[32];
        snprintf(kind, sizeof kind, "send-%d", ntohs(((const struct sockaddr_in *)address)->sin_port));
        if (is_spoiled(kind)) { errno = ENETUNREACH; return -1; }
        last("sending");
    }
    return syscall(SYS_sendto, file, bytes, size, flags, address, length);
}

ssize_t send(int file, const void *bytes, size_t size, int flags) {
    size_t few = size > FEW && !is_datagram(file) && is_spoiled("few") ? FEW : size;
    return syscall(SYS_sendto, file, bytes, few, flags, NULL, 0);
}

int bind(int file, const struct sockaddr *address, socklen_t length) {
    if (address->sa_family == AF_INET6 && is_spoiled("six")) {
        errno = EAFNOSUPPORT;
        return -1;
    }
    return (int)syscall(SYS_bind, file, address, length);
}

int getentropy(void *place, size_t size) {
    if (is_spoiled("random")) {
        errno = EIO;
        return -1;
    }
    return syscall(SYS_getrandom, place, size, 0) == (ssize_t)size ? 0 : -1;
}

int nanosleep(const struct timespec *wanted, struct timespec *left) {
    int (*rest)(const struct timespec *, struct timespec *);
    long long length = is_spoiled("hasty") ? nanoseconds_in(*wanted) / 100 : nanoseconds_in(*wanted);
    struct timespec time = {length / SECOND, length % SECOND};
    *(void **)&rest = dlsym(RTLD_NEXT, "nanosleep");
    return rest(&time, left);
}

int epoll_ctl(int poll, int act, int file, struct epoll_event *event) {
    if (is_spoiled("watch")) { errno = ENOSPC; return -1; }
    return (int)syscall(SYS_epoll_ctl, poll, act, file, event);
}

int epoll_wait(int poll, struct epoll_event *events, int most, int wait) {
    if (is_spoiled("events")) { errno = EBADF; return -1; }
    int (*next)(int, struct epoll_event *, int, int);
    *(void **)&next = dlsym(RTLD_NEXT, "epoll_wait");
    return next(poll, events, most, wait);
}

/* The calls that take memory. Those of the loader come before main. */
static int has_begun;

__attribute__((constructor)) static void begin(void) { has_begun = 1; }

static int has_memory(void) {
    return !has_begun || !is_spoiled("memory");
}

void *malloc(size_t size) {
    return has_memory() ? __libc_malloc(size) : NULL;
}

void *calloc(size_t count, size_t size) {
    return has_memory() ? __libc_calloc(count, size) : NULL;
}

void *realloc(void *old, size_t size) {
    return has_memory() ? __libc_realloc(old, size) : NULL;
}

void *aligned_alloc(size_t align, size_t size) {
    return has_memory() ? __libc_memalign(align, size) : NULL;
}

int posix_memalign(void **place, size_t align, size_t size) {
    void *found = has_memory() ? __libc_memalign(align, size) : NULL;
    if (!found) return ENOMEM;
    *place = found;
    return 0;
}

int rename(const char *from, const char *to) {
    last("rename");
    return (int)syscall(SYS_rename, from, to);
}

int getaddrinfo(const char *name, const char *service, const struct addrinfo *hints, struct addrinfo **found) {
    int (*look)(const char *, const char *, const struct addrinfo *, struct addrinfo **);
    char text[PATH_BYTES], *rest = NULL;
    count_in("lookups");
    last("lookup");
    *(void **)&look = dlsym(RTLD_NEXT, "getaddrinfo");
    ssize_t length = content_of("addresses", text, sizeof text - 1);
    if (length < 0) return look(name, service, hints, found);
    text[length] = 0;
    for (char *one = strtok_r(text, " ", &rest); one; one = strtok_r(NULL, " ", &rest)) {
        int status = look(one, service, hints, found);
        if (status != 0) return status;
        while (*found) found = &(*found)->ai_next;
    }
    return 0;
}
