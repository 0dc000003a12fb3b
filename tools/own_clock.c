/* Gives the server of NTP that it is loaded into by LD_PRELOAD a real-time clock of its own, with an oscillator that is wrong. The host's
 * clock, which shows the true time there, is never set.
 *
 * OWN_CLOCK names a file of one page that all who want to see the clock map, with the fields of `struct own` in front. Its oscillator runs
 * by `wanted` parts per million faster; what the server asks the kernel for (tick, frequency, steps) is done to this clock. The kernel's
 * stamps of packets are refused, or, with OWN_STAMPS, moved to this clock. */
#define _GNU_SOURCE
#include <errno.h>
#include <fcntl.h>
#include <stdint.h>
#include <stdlib.h>
#include <string.h>
#include <sys/mman.h>
#include <sys/socket.h>
#include <sys/syscall.h>
#include <sys/time.h>
#include <sys/timex.h>
#include <time.h>
#include <unistd.h>

enum { PAGE = 4096, STEP_BY_ADJTIME = 0x8001, LOOK_AT_ADJTIME = 0xa001, GREATEST_ERROR = 16000000 };

static const int64_t SECOND = 1000000000, THOUSAND = 1000;

/* When the true time was `since`, this clock showed `shown`; it has run by the part `rate` faster since. `turns` is odd while that changes. */
struct own {
    uint64_t turns;
    int64_t since, shown;
    double rate, oscillator;
    int64_t tick, frequency;
    double wanted;
};

static volatile struct own *own;

/* What the server says of its error, which a step makes unknown: by that chronyd sees that steps are done. */
static long error = GREATEST_ERROR;

static struct timespec time_of(int64_t nanoseconds) {
    return (struct timespec){nanoseconds / SECOND, nanoseconds % SECOND};
}

static int64_t true_now(void) {
    struct timespec now = {0, 0};
    syscall(SYS_clock_gettime, CLOCK_REALTIME, &now);
    return now.tv_sec * SECOND + now.tv_nsec;
}

static int64_t shown_at(int64_t moment) {
    int64_t gone = moment - own->since;
    return own->shown + gone + (int64_t)((double)gone * own->rate);
}

/* Steps the clock, and has it run by what is asked for now. */
static void turn(int64_t step) {
    int64_t now = true_now(), shown = shown_at(now) + step;
    own->turns++;
    __sync_synchronize();
    own->since = now;
    own->shown = shown;
    own->oscillator = own->wanted;
    own->rate = (1 + own->oscillator * 1e-6) * ((double)own->tick / 1e4 + (double)own->frequency / 65536e6) - 1;
    __sync_synchronize();
    own->turns++;
}

static int64_t shown_now(void) {
    if (!own) {
        const char *path = getenv("OWN_CLOCK");
        int file = path ? open(path, O_RDWR | O_CLOEXEC) : -1;
        void *page = file < 0 ? MAP_FAILED : mmap(NULL, PAGE, PROT_READ | PROT_WRITE, MAP_SHARED, file, 0);
        if (page == MAP_FAILED) abort();
        close(file);
        own = page;
    }
    if (own->oscillator < own->wanted || own->oscillator > own->wanted) turn(0);
    return shown_at(true_now());
}

int clock_gettime(clockid_t clock, struct timespec *place) {
    if (clock != CLOCK_REALTIME && clock != CLOCK_REALTIME_COARSE) return (int)syscall(SYS_clock_gettime, clock, place);
    *place = time_of(shown_now());
    return 0;
}

int gettimeofday(struct timeval *restrict place, void *restrict zone) {
    struct timespec now = time_of(shown_now());
    (void)zone;
    *place = (struct timeval){now.tv_sec, now.tv_nsec / THOUSAND};
    return 0;
}

time_t time(time_t *place) {
    time_t now = shown_now() / SECOND;
    if (place) *place = now;
    return now;
}

int adjtimex(struct timex *asked) {
    struct timespec now = time_of(shown_now());
    int64_t step = 0;
    if (asked->modes != STEP_BY_ADJTIME && asked->modes != LOOK_AT_ADJTIME) {
        if (asked->modes & ADJ_SETOFFSET) step = asked->time.tv_sec * SECOND + asked->time.tv_usec * (asked->modes & ADJ_NANO ? 1 : THOUSAND);
        if (asked->modes & ADJ_MAXERROR) error = asked->maxerror;
        if (asked->modes & ADJ_SETOFFSET) error = GREATEST_ERROR;
        if (asked->modes & ADJ_TICK) own->tick = asked->tick;
        if (asked->modes & ADJ_FREQUENCY) own->frequency = asked->freq;
    }
    turn(step);
    int status = asked->modes & ADJ_STATUS ? asked->status : STA_UNSYNC;
    *asked = (struct timex){.modes = asked->modes, .tick = own->tick, .freq = own->frequency, .status = status, .maxerror = error,
                            .esterror = GREATEST_ERROR, .constant = 2, .precision = 1, .tolerance = 32768000, .tai = 37,
                            .time = {now.tv_sec, now.tv_nsec / THOUSAND}};
    return TIME_OK;
}

int ntp_adjtime(struct timex *asked) { return adjtimex(asked); }

int clock_adjtime(clockid_t clock, struct timex *asked) {
    (void)clock;
    return adjtimex(asked);
}

int adjtime(const struct timeval *step, struct timeval *left) {
    shown_now();
    if (left) *left = (struct timeval){0, 0};
    if (step) turn(step->tv_sec * SECOND + step->tv_usec * THOUSAND);
    return 0;
}

int settimeofday(const struct timeval *now, const struct timezone *zone) {
    (void)now, (void)zone;
    errno = EPERM;
    return -1;
}

int clock_settime(clockid_t clock, const struct timespec *now) {
    (void)clock, (void)now;
    errno = EPERM;
    return -1;
}

static int is_stamp(int name) {
    return name == SO_TIMESTAMP || name == SO_TIMESTAMPNS || name == SO_TIMESTAMPING;
}

int setsockopt(int door, int level, int name, const void *value, socklen_t length) {
    if (level == SOL_SOCKET && is_stamp(name) && !getenv("OWN_STAMPS")) {
        errno = ENOPROTOOPT;
        return -1;
    }
    return (int)syscall(SYS_setsockopt, door, level, name, value, length);
}

/* Moves a stamp of the kernel's to this clock. */
static void move(struct cmsghdr *head) {
    struct timespec stamp;
    struct timeval coarse;
    if (head->cmsg_type == SO_TIMESTAMPNS) {
        memcpy(&stamp, CMSG_DATA(head), sizeof stamp);
        stamp = time_of(shown_at(stamp.tv_sec * SECOND + stamp.tv_nsec));
        memcpy(CMSG_DATA(head), &stamp, sizeof stamp);
    } else if (head->cmsg_type == SO_TIMESTAMP) {
        memcpy(&coarse, CMSG_DATA(head), sizeof coarse);
        stamp = time_of(shown_at(coarse.tv_sec * SECOND + coarse.tv_usec * THOUSAND));
        coarse = (struct timeval){stamp.tv_sec, stamp.tv_nsec / THOUSAND};
        memcpy(CMSG_DATA(head), &coarse, sizeof coarse);
    }
}

ssize_t recvmsg(int door, struct msghdr *message, int flags) {
    ssize_t length = syscall(SYS_recvmsg, door, message, flags);
    shown_now();
    for (struct cmsghdr *head = length < 0 ? NULL : CMSG_FIRSTHDR(message); head; head = CMSG_NXTHDR(message, head))
        if (head->cmsg_level == SOL_SOCKET) move(head);
    return length;
}
