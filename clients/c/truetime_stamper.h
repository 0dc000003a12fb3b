/* truetime_stamper.h: timestamps for commits, taken in the process of the database from the file that truetime.h reads.
 *
 *     tt_client client;
 *     tt_stamper stamper;
 *     tt_stamp stamp;
 *     bool is_past;
 *     uid_t owner;
 *     if (tt_uid("truetime", &owner) != 0) ...                               the user who has to own the file
 *     if (tt_open(&client, "/run/truetime/time", owner) != 0) ...            tt_cause(&client) has the reason
 *     if (tt_stamper_open(&stamper, &client, 0, TT_MAX_TIME_NS) != 0) ...    its lease: here the whole of time
 *     if (tt_stamper_stamp(&stamper, 0, &stamp) != 0) ...                    no other stamp of this stamper is the same
 *     ...                                                                    write and commit locally, under stamp.stamp_ns
 *     if (tt_stamper_wait_past(&stamper, stamp.stamp_ns, UINT64_MAX, &is_past) != 0) ...
 *                                                                            only now may anybody be told of the commit
 *
 * One lease, one stamper. A stamper knows of no other one: two stampers, also two copies of one and the two that a fork
 * leaves, or a stamper and the sessions of the machine, give equal stamps and stamps out of order, unless their leases have
 * no time in common. The setting stampers of the machine keeps its sessions out of an interval. Several processes may share one
 * stamper by tt_stamper_share: one word of shared memory then has the least free time of them all.
 *
 * A stamper keeps nothing on disk. After a restart open it with a new lease, or with the old one and, until the first stamp
 * is given, a floor above the greatest stamp in the log; where that is refused with 902, the log or the time is wrong.
 *
 * Calls answer 0, or the number of a refusal. A caller that does not look has the stamp 0, or false. Any number of threads
 * may use a stamper. Needs what truetime.h needs.
 */
#ifndef TRUETIME_STAMPER_H
#define TRUETIME_STAMPER_H

#include "truetime.h"

#ifdef __cplusplus
#include <atomic>
#define TT_STD std::
typedef std::atomic<uint64_t> tt_atomic;
#else
#include <stdatomic.h>
#define TT_STD
typedef _Atomic uint64_t tt_atomic;
#endif

#ifdef __cplusplus
extern "C" {
#endif

/* The most that a floor may lie ahead of the latest of a reading, in nanoseconds: ten seconds; and how far it may unless
 * tt_stamper_limit says otherwise: a second, as for sessions. */
#define TT_MAX_AHEAD_NS UINT64_C(10000000000)
#define TT_AHEAD_NS UINT64_C(1000000000)
/* The widest grid, in nanoseconds. */
#define TT_MAX_GRID_NS UINT64_C(1000000000)
/* The longest sleep before a new reading, in nanoseconds. */
#define TT_LONGEST_SLEEP_NS UINT64_C(50000000)

/* The refusals that a reader does not have. */
enum tt_stamp_refusal {
    TT_LEASE_BACKWARDS = 101, /* the ends of the lease are out of order */
    TT_LEASE_PAST_MAX = 102,  /* the end of the lease is above the greatest time */
    TT_USED_UP = 901,         /* no stamp is left up to the greatest time */
    TT_FLOOR_TOO_FAR = 902,   /* the floor is further above the latest of the reading than it may be */
    TT_LEASE_OVER = 903       /* the least stamp that may be given is above the end of the lease */
};

/* What gives the stamps of one lease. Set it by tt_stamper_open; there is nothing to close. */
typedef struct tt_stamper {
    const tt_client *client;
    uint64_t lease_lo_ns;
    tt_atomic lease_hi_ns;
    tt_atomic least_free_ns;  /* the least time above all stamps given: 0, or one more than the last */
    tt_atomic *shared_ns;     /* in place of that, where it is not NULL */
    uint64_t ahead_ns, grid_ns;
} tt_stamper;

/* A stamp, and the reading by which it was given: latest_ns <= stamp_ns. */
typedef struct tt_stamp {
    uint64_t stamp_ns;
    uint64_t earliest_ns, latest_ns;
    uint64_t epoch; /* the daemon's life */
    bool fresh;     /* false: the daemon is late or gone. Stamps are right, and waits grow longer until it is back */
} tt_stamp;

/* Opens a stamper over an open client, with a lease of all times from the one to the other. It has given no stamp. The client
 * has to stay open, and where it is. Refuses with 101 and 102, and then gives none. */
static inline int tt_stamper_open(tt_stamper *stamper, const tt_client *client, uint64_t lease_lo_ns, uint64_t lease_hi_ns) {
    int refused = lease_hi_ns < lease_lo_ns ? TT_LEASE_BACKWARDS : lease_hi_ns > TT_MAX_TIME_NS ? TT_LEASE_PAST_MAX : 0;
    stamper->client = client;
    stamper->lease_lo_ns = refused == 0 ? lease_lo_ns : TT_MAX_TIME_NS;
    stamper->shared_ns = NULL;
    stamper->ahead_ns = TT_AHEAD_NS;
    stamper->grid_ns = 1;
    TT_STD atomic_store_explicit(&stamper->lease_hi_ns, refused == 0 ? lease_hi_ns : UINT64_C(0), TT_STD memory_order_release);
    TT_STD atomic_store_explicit(&stamper->least_free_ns, UINT64_C(0), TT_STD memory_order_release);
    return refused;
}

/* How far a floor may lie ahead of the latest, ten seconds at most: it moves all later stamps, too. And of what stamps are
 * multiples, a second at most: 1,000 where a database keeps microseconds. Call it before other threads use the stamper. Answers
 * -EINVAL for other numbers, and then nothing changes. */
static inline int tt_stamper_limit(tt_stamper *stamper, uint64_t ahead_ns, uint64_t grid_ns) {
    if (ahead_ns > TT_MAX_AHEAD_NS || grid_ns == 0 || grid_ns > TT_MAX_GRID_NS) return -EINVAL;
    stamper->ahead_ns = ahead_ns;
    stamper->grid_ns = grid_ns;
    return 0;
}

/* Has stampers of several processes, each over a client of its own, share this word, which is in memory that all of them map and
 * is 0 at first: none of them gives a stamp that another one gave, or one below. They have the same lease. Call it before other
 * threads use the stamper. */
static inline void tt_stamper_share(tt_stamper *stamper, tt_atomic *word) { stamper->shared_ns = word; }

static inline tt_atomic *tt_stamper_free(tt_stamper *stamper) {
    return stamper->shared_ns != NULL ? stamper->shared_ns : &stamper->least_free_ns;
}

/* Raises a word to a number; one that is greater stays. */
static inline void tt_raise(tt_atomic *word, uint64_t number) {
    uint64_t found = TT_STD atomic_load_explicit(word, TT_STD memory_order_acquire);
    while (found < number && !TT_STD atomic_compare_exchange_weak_explicit(word, &found, number, TT_STD memory_order_acq_rel,
                                                                           TT_STD memory_order_acquire)) {}
}

/* Has the lease end later, while other threads stamp. It never ends earlier by this. Refuses with 102. */
static inline int tt_stamper_extend(tt_stamper *stamper, uint64_t lease_hi_ns) {
    if (lease_hi_ns > TT_MAX_TIME_NS) return TT_LEASE_PAST_MAX;
    tt_raise(&stamper->lease_hi_ns, lease_hi_ns);
    return 0;
}

/* Has all stamps from now on be above this time, as above the greatest in a log. Refuses with 102. */
static inline int tt_stamper_rise_above(tt_stamper *stamper, uint64_t t_ns) {
    if (t_ns > TT_MAX_TIME_NS) return TT_LEASE_PAST_MAX;
    tt_raise(tt_stamper_free(stamper), t_ns + 1);
    return 0;
}

/* The stamp by a reading, which has to be taken after the commit has arrived: tt_stamper_stamp takes it itself. Refuses with
 * 902, 901 and 903. It makes one load and one exchange, and one more exchange each time that another thread was faster. */
static inline int tt_stamper_stamp_at(tt_stamper *stamper, const tt_reading *reading, uint64_t floor_ns, uint64_t *stamp_ns) {
    tt_atomic *word = tt_stamper_free(stamper);
    *stamp_ns = 0;
    if (floor_ns > reading->latest_ns + stamper->ahead_ns) return TT_FLOOR_TOO_FAR;
    uint64_t least = reading->latest_ns > floor_ns ? reading->latest_ns : floor_ns;
    if (least < stamper->lease_lo_ns) least = stamper->lease_lo_ns;
    uint64_t free_ns = TT_STD atomic_load_explicit(word, TT_STD memory_order_acquire);
    for (;;) {
        uint64_t stamp = least > free_ns ? least : free_ns;
        if (stamper->grid_ns > 1) stamp += (stamper->grid_ns - stamp % stamper->grid_ns) % stamper->grid_ns;
        if (stamp > TT_MAX_TIME_NS) return TT_USED_UP;
        if (stamp > TT_STD atomic_load_explicit(&stamper->lease_hi_ns, TT_STD memory_order_acquire)) return TT_LEASE_OVER;
        if (TT_STD atomic_compare_exchange_strong_explicit(word, &free_ns, stamp + 1,
                                                           TT_STD memory_order_acq_rel, TT_STD memory_order_acquire)) {
            *stamp_ns = stamp;
            return 0;
        }
    }
}

/* Gives the least stamp on the grid that is no less than the latest of a reading taken in this call, the floor and the beginning
 * of the lease, and above every stamp before of this stamper. It makes no system call where tt_now makes none.
 *
 * Refuses as tt_now does, and then, in this order, with 902 where the floor is too far ahead, 901 where there is no such
 * stamp up to the greatest time, and 903 where it is above the end of the lease. The stamp is 0 then, and none is used up. */
static inline int tt_stamper_stamp(tt_stamper *stamper, uint64_t floor_ns, tt_stamp *stamp) {
    tt_reading reading;
    int refused = tt_now(stamper->client, &reading);
    stamp->stamp_ns = 0;
    if (refused == 0) refused = tt_stamper_stamp_at(stamper, &reading, floor_ns, &stamp->stamp_ns);
    stamp->earliest_ns = reading.earliest_ns;
    stamp->latest_ns = reading.latest_ns;
    stamp->epoch = reading.epoch;
    stamp->fresh = reading.fresh;
    return refused;
}

/* Whether a stamp, of any stamper, has surely passed: it is below the earliest of a reading taken in this call. Refuses as
 * tt_now does, with false. */
static inline int tt_stamper_is_past(const tt_stamper *stamper, uint64_t stamp_ns, bool *is_past) {
    tt_reading now;
    int refused = tt_now(stamper->client, &now);
    *is_past = tt_after(&now, stamp_ns);
    return refused;
}

/* One step of tt_stamper_wait_past, for who has to look at something else meanwhile: 0 where a stamp has surely passed, or else how
 * long to sleep before the next look, at most 50 milliseconds. Refuses as tt_now does, with the longest sleep. */
static inline int tt_stamper_left(const tt_stamper *stamper, uint64_t stamp_ns, uint64_t *sleep_ns) {
    tt_reading now;
    int refused = tt_now(stamper->client, &now);
    *sleep_ns = TT_LONGEST_SLEEP_NS;
    if (refused != 0) return refused;
    uint64_t ahead = stamp_ns - now.earliest_ns;
    if (tt_after(&now, stamp_ns)) *sleep_ns = 0;
    else if (ahead < TT_LONGEST_SLEEP_NS) *sleep_ns = ahead + 1;
    return 0;
}

/* Sleeps until a stamp has surely passed, or CLOCK_MONOTONIC is at the deadline: with false then. UINT64_MAX is no deadline.
 * A reading is taken at once, and after each sleep, which is as long as the stamp is ahead of the earliest, but at most 50
 * milliseconds, since a new publication may be narrower. Refuses as tt_now does, with false; then it may be called again. */
static inline int tt_stamper_wait_past(const tt_stamper *stamper, uint64_t stamp_ns, uint64_t deadline_ns, bool *is_past) {
    for (;;) {
        uint64_t clock_ns = 0, sleep_ns;
        int refused = tt_stamper_left(stamper, stamp_ns, &sleep_ns);
        *is_past = refused == 0 && sleep_ns == 0;
        if (refused != 0 || *is_past) return refused;
        refused = tt_clock(&clock_ns);
        if (refused != 0 || clock_ns >= deadline_ns) return refused;
        if (sleep_ns > deadline_ns - clock_ns) sleep_ns = deadline_ns - clock_ns;
        struct timespec pause;
        pause.tv_sec = 0;
        pause.tv_nsec = (long)sleep_ns;
        nanosleep(&pause, NULL);
    }
}

#ifdef __cplusplus
}
#endif

#undef TT_STD

#endif
