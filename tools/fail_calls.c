/* Makes calls of the program that it is loaded into fail. Each kind of call in the list below has an environment variable: REFUSE for the
 * allocations, FAIL_READ for `read`, and so on. Its value N makes the N-th call of this kind fail, counted from 1 over all threads; N+
 * that call and all behind it; and N! that call as if a signal had ended it. Where SHORT is set, each call that moves bytes of a stream moves one. COUNT names a file of zeros, in which
 * it counts the calls of each kind as they are made: a record for each, its name and the number. So the counts are there whatever ends the
 * program. It stands before the C library by LD_PRELOAD, and hands every other call on to it. */
#define _GNU_SOURCE
#include <dlfcn.h>
#include <errno.h>
#include <fcntl.h>
#include <poll.h>
#include <pthread.h>
#include <stdarg.h>
#include <stdatomic.h>
#include <stddef.h>
#include <stdlib.h>
#include <string.h>
#include <sys/epoll.h>
#include <sys/eventfd.h>
#include <sys/file.h>
#include <sys/ioctl.h>
#include <sys/mman.h>
#include <sys/socket.h>
#include <sys/stat.h>
#include <sys/syscall.h>
#include <time.h>
#include <unistd.h>

extern void *__libc_malloc(size_t);
extern void *__libc_calloc(size_t, size_t);
extern void *__libc_realloc(void *, size_t);
extern void *__libc_memalign(size_t, size_t);

/* The kinds of calls, each with the error that one which fails gives. */
#define KINDS(X) \
    X(REFUSE, ENOMEM) X(FAIL_READ, EIO) X(FAIL_WRITE, EIO) X(FAIL_PREAD, EIO) X(FAIL_PWRITE, ENOSPC) \
    X(FAIL_RECV, ECONNRESET) X(FAIL_SEND, ECONNRESET) X(FAIL_RECVFROM, EBADF) X(FAIL_SENDTO, EBADF) \
    X(FAIL_SOCKET, EMFILE) X(FAIL_BIND, EADDRINUSE) X(FAIL_LISTEN, ENOBUFS) X(FAIL_ACCEPT4, EMFILE) X(FAIL_CONNECT, ECONNREFUSED) \
    X(FAIL_GETSOCKNAME, ENOBUFS) X(FAIL_GETSOCKOPT, ENOBUFS) X(FAIL_SETSOCKOPT, ENOBUFS) X(FAIL_IOCTL, EBADF) X(FAIL_FCNTL, EBADF) \
    X(FAIL_EPOLL_CREATE1, EMFILE) X(FAIL_EPOLL_CTL, ENOSPC) X(FAIL_EPOLL_WAIT, EBADF) X(FAIL_EVENTFD, EMFILE) X(FAIL_POLL, ENOMEM) \
    X(FAIL_OPEN, EMFILE) X(FAIL_STATX, EIO) X(FAIL_MKDIR, EIO) X(FAIL_FLOCK, EIO) X(FAIL_LSEEK, EIO) X(FAIL_FTRUNCATE, EIO) \
    X(FAIL_FCHMOD, EIO) X(FAIL_FSYNC, EIO) X(FAIL_RENAME, EIO) X(FAIL_UNLINK, EIO) \
    X(FAIL_CLOCK_GETTIME, EINVAL) X(FAIL_PTHREAD_CREATE, EAGAIN)

#define NUMBER_OF(name, error) name,
#define ERROR_OF(name, error) error,
#define COUNT_OF(name, error) {#name, 0},

enum kind { KINDS(NUMBER_OF) KINDS_OF_CALLS };

struct count {
    char name[24];
    atomic_ulong calls;
};

static struct count counted_here[] = {KINDS(COUNT_OF)};
static struct count *counts = counted_here;
static int errors[] = {KINDS(ERROR_OF)};
static unsigned long first_failed[KINDS_OF_CALLS], last_failed[KINDS_OF_CALLS];
static int is_short, begun;
static atomic_char is_event[1024];

static void count_in_file(const char *name) {
    int file = open(name, O_RDWR);
    void *place = mmap(NULL, sizeof counted_here, PROT_READ | PROT_WRITE, MAP_SHARED, file, 0);
    if (file < 0 || place == MAP_FAILED) abort();
    close(file);
    memcpy(place, counted_here, sizeof counted_here);
    counts = place;
}

/* Before main, and so behind the calls of the loader, which are not counted. */
__attribute__((constructor)) static void begin(void) {
    for (int kind = 0; kind < KINDS_OF_CALLS; kind++) {
        char *end, *text = getenv(counted_here[kind].name);
        if (!text) continue;
        first_failed[kind] = last_failed[kind] = strtoul(text, &end, 10);
        if (*end == '+') last_failed[kind] = -1UL;
        if (*end == '!') errors[kind] = EINTR;
    }
    is_short = getenv("SHORT") != NULL;
    if (getenv("COUNT")) count_in_file(getenv("COUNT"));
    begun = 1;
}

static int fails(enum kind kind) {
    if (!begun) return 0;
    unsigned long number = ++counts[kind].calls;
    if (number < first_failed[kind] || number > last_failed[kind]) return 0;
    errno = errors[kind];
    return 1;
}

void *malloc(size_t size) { return fails(REFUSE) ? NULL : __libc_malloc(size); }

void *calloc(size_t count, size_t size) { return fails(REFUSE) ? NULL : __libc_calloc(count, size); }

void *realloc(void *old, size_t size) { return fails(REFUSE) ? NULL : __libc_realloc(old, size); }

void *aligned_alloc(size_t align, size_t size) { return fails(REFUSE) ? NULL : __libc_memalign(align, size); }

int posix_memalign(void **place, size_t align, size_t size) {
    void *found = fails(REFUSE) ? NULL : __libc_memalign(align, size);
    if (!found) return ENOMEM;
    *place = found;
    return 0;
}

/* How many of these bytes of a stream are moved. */
static size_t moved(size_t size) { return is_short && size > 1 ? 1 : size; }

/* What wakes a thread moves whole and does not fail, as an event descriptor does not. */
static int wakes(int file) { return file >= 0 && (size_t)file < sizeof is_event && is_event[file]; }

ssize_t read(int file, void *place, size_t size) {
    if (wakes(file)) return syscall(SYS_read, file, place, size);
    return fails(FAIL_READ) ? -1 : syscall(SYS_read, file, place, moved(size));
}

ssize_t write(int file, const void *bytes, size_t size) {
    if (wakes(file)) return syscall(SYS_write, file, bytes, size);
    return fails(FAIL_WRITE) ? -1 : syscall(SYS_write, file, bytes, moved(size));
}

int eventfd(unsigned int value, int flags) {
    int file = fails(FAIL_EVENTFD) ? -1 : (int)syscall(SYS_eventfd2, value, flags);
    if (file >= 0 && (size_t)file < sizeof is_event) is_event[file] = 1;
    return file;
}

ssize_t recv(int file, void *place, size_t size, int flags) {
    return fails(FAIL_RECV) ? -1 : syscall(SYS_recvfrom, file, place, moved(size), flags, NULL, NULL);
}

ssize_t send(int file, const void *bytes, size_t size, int flags) {
    return fails(FAIL_SEND) ? -1 : syscall(SYS_sendto, file, bytes, moved(size), flags, NULL, 0);
}

/* The call of this name behind this library. */
#define NEXT(name) \
    static __typeof__(&name) next; \
    if (!next) next = (__typeof__(&name))dlsym(RTLD_NEXT, #name);

#define HANDED_ON(kind, type, name, parameters, arguments) \
    type name parameters { \
        NEXT(name) \
        return fails(kind) ? -1 : next arguments; \
    }

HANDED_ON(FAIL_PREAD, ssize_t, pread, (int file, void *place, size_t size, off_t at), (file, place, size, at))
HANDED_ON(FAIL_PWRITE, ssize_t, pwrite, (int file, const void *bytes, size_t size, off_t at), (file, bytes, size, at))
HANDED_ON(FAIL_RECVFROM, ssize_t, recvfrom, (int file, void *place, size_t size, int flags, struct sockaddr *address, socklen_t *length),
          (file, place, size, flags, address, length))
HANDED_ON(FAIL_SENDTO, ssize_t, sendto, (int file, const void *bytes, size_t size, int flags, const struct sockaddr *address, socklen_t length),
          (file, bytes, size, flags, address, length))
HANDED_ON(FAIL_SOCKET, int, socket, (int domain, int type, int protocol), (domain, type, protocol))
HANDED_ON(FAIL_BIND, int, bind, (int file, const struct sockaddr *address, socklen_t length), (file, address, length))
HANDED_ON(FAIL_LISTEN, int, listen, (int file, int backlog), (file, backlog))
HANDED_ON(FAIL_ACCEPT4, int, accept4, (int file, struct sockaddr *address, socklen_t *length, int flags), (file, address, length, flags))
HANDED_ON(FAIL_CONNECT, int, connect, (int file, const struct sockaddr *address, socklen_t length), (file, address, length))
HANDED_ON(FAIL_GETSOCKNAME, int, getsockname, (int file, struct sockaddr *address, socklen_t *length), (file, address, length))
HANDED_ON(FAIL_GETSOCKOPT, int, getsockopt, (int file, int level, int name, void *value, socklen_t *length), (file, level, name, value, length))
HANDED_ON(FAIL_SETSOCKOPT, int, setsockopt, (int file, int level, int name, const void *value, socklen_t length), (file, level, name, value, length))
HANDED_ON(FAIL_EPOLL_CREATE1, int, epoll_create1, (int flags), (flags))
HANDED_ON(FAIL_EPOLL_CTL, int, epoll_ctl, (int poll, int act, int file, struct epoll_event *event), (poll, act, file, event))
HANDED_ON(FAIL_EPOLL_WAIT, int, epoll_wait, (int poll, struct epoll_event *events, int most, int wait), (poll, events, most, wait))
HANDED_ON(FAIL_POLL, int, poll, (struct pollfd *files, nfds_t number, int wait), (files, number, wait))
HANDED_ON(FAIL_STATX, int, statx, (int folder, const char *path, int flags, unsigned int mask, struct statx *told), (folder, path, flags, mask, told))
HANDED_ON(FAIL_MKDIR, int, mkdir, (const char *path, mode_t mode), (path, mode))
HANDED_ON(FAIL_FLOCK, int, flock, (int file, int act), (file, act))
HANDED_ON(FAIL_LSEEK, off_t, lseek, (int file, off_t by, int from), (file, by, from))
HANDED_ON(FAIL_FTRUNCATE, int, ftruncate, (int file, off_t length), (file, length))
HANDED_ON(FAIL_FCHMOD, int, fchmod, (int file, mode_t mode), (file, mode))
HANDED_ON(FAIL_FSYNC, int, fsync, (int file), (file))
HANDED_ON(FAIL_FSYNC, int, fdatasync, (int file), (file))
HANDED_ON(FAIL_RENAME, int, rename, (const char *old, const char *path), (old, path))
HANDED_ON(FAIL_UNLINK, int, unlink, (const char *path), (path))
HANDED_ON(FAIL_CLOCK_GETTIME, int, clock_gettime, (clockid_t clock, struct timespec *time), (clock, time))

/* These take one argument more or none; one that is not given is handed on, and not looked at. */
#define WITH_ONE_MORE(kind, name, first_type, second_type, third_type) \
    int name(first_type first, second_type second, ...) { \
        va_list more; \
        va_start(more, second); \
        third_type third = va_arg(more, third_type); \
        va_end(more); \
        NEXT(name) \
        return fails(kind) ? -1 : next(first, second, third); \
    }

WITH_ONE_MORE(FAIL_OPEN, open, const char *, int, unsigned int)
WITH_ONE_MORE(FAIL_IOCTL, ioctl, int, unsigned long, void *)
WITH_ONE_MORE(FAIL_FCNTL, fcntl, int, int, void *)

int pthread_create(pthread_t *thread, const pthread_attr_t *attributes, void *(*call)(void *), void *given) {
    NEXT(pthread_create)
    return fails(FAIL_PTHREAD_CREATE) ? errno : next(thread, attributes, call, given);
}
