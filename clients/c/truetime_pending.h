/* truetime_pending.h: the commits of a process that are begun and not written, for snapshots.
 *
 *     uint64_t stamps[100];                                                   as many as may be pending at once
 *     tt_pending table;
 *     tt_stamp stamp;
 *     bool is_past;
 *     if (tt_pending_open(&table, &stamper, stamps, 100) != 0) ...
 *     if (tt_pending_begin(&table, 0, &stamp) != 0) ...
 *     ...                                                                     write, under stamp.stamp_ns
 *     if (tt_pending_written(&table, stamp.stamp_ns) != 0) ...                who reads under it sees it from now on
 *     if (tt_pending_release(&table, stamp.stamp_ns, UINT64_MAX, &is_past) != 0) ...
 *                                                                             only now may anybody be told of the commit
 *
 * A snapshot at a time that tt_pending_make_readable or tt_pending_watermark gave holds every commit with a stamp up to it, and no
 * later one gets such a stamp. Any number of threads of one process may use one table; no stamp of the stamper may be taken past it.
 *
 * Calls answer 0, the number of a refusal, or the negative of an error number. Needs what truetime_stamper.h needs, and threads of
 * POSIX (-pthread).
 */
#ifndef TRUETIME_PENDING_H
#define TRUETIME_PENDING_H

#include "truetime_stamper.h"

#include <pthread.h>

#ifdef __cplusplus
extern "C" {
#endif

/* A table. Set it by tt_pending_open. */
typedef struct tt_pending {
    tt_stamper *stamper;
    uint64_t *stamps; /* of the commits that are not written; they rise */
    size_t size, used;
    pthread_mutex_t lock;
    pthread_cond_t changed;
} tt_pending;

/* Opens a table of no commits over an open stamper, with memory for the stamps of as many as may be pending. Both stay where they
 * are. Answers the negative of an error number where it could not. */
static inline int tt_pending_open(tt_pending *table, tt_stamper *stamper, uint64_t *stamps, size_t size) {
    pthread_condattr_t by_clock;
    table->stamper = stamper;
    table->stamps = stamps;
    table->size = size;
    table->used = 0;
    int error = pthread_condattr_init(&by_clock);
    if (error != 0) return -error;
    error = pthread_condattr_setclock(&by_clock, CLOCK_MONOTONIC);
    if (error == 0) error = pthread_cond_init(&table->changed, &by_clock);
    pthread_condattr_destroy(&by_clock);
    if (error != 0) return -error;
    error = pthread_mutex_init(&table->lock, NULL);
    if (error != 0) pthread_cond_destroy(&table->changed);
    return -error;
}

/* Closes a table that no thread uses any more. */
static inline void tt_pending_close(tt_pending *table) {
    pthread_mutex_destroy(&table->lock);
    pthread_cond_destroy(&table->changed);
}

/* Begins a commit: its stamp, as tt_stamper_stamp gives it, with its refusals. It has to be ended by tt_pending_written or
 * tt_pending_give_up. Answers -ENOBUFS where as many are pending as may, with the stamp 0. */
static inline int tt_pending_begin(tt_pending *table, uint64_t floor_ns, tt_stamp *stamp) {
    stamp->stamp_ns = 0;
    pthread_mutex_lock(&table->lock);
    int failed = table->used == table->size ? -ENOBUFS : tt_stamper_stamp(table->stamper, floor_ns, stamp);
    if (failed == 0) table->stamps[table->used++] = stamp->stamp_ns;
    pthread_mutex_unlock(&table->lock);
    return failed;
}

/* The place of a stamp, or as many as are used. */
static inline size_t tt_pending_place(const tt_pending *table, uint64_t stamp_ns) {
    size_t place = 0;
    while (place < table->used && table->stamps[place] != stamp_ns) place++;
    return place;
}

static inline int tt_pending_end(tt_pending *table, uint64_t stamp_ns) {
    pthread_mutex_lock(&table->lock);
    size_t place = tt_pending_place(table, stamp_ns);
    bool is_pending = place < table->used;
    if (is_pending) {
        table->used--;
        memmove(table->stamps + place, table->stamps + place + 1, (table->used - place) * sizeof *table->stamps);
        pthread_cond_broadcast(&table->changed);
    }
    pthread_mutex_unlock(&table->lock);
    return is_pending ? 0 : -ENOENT;
}

/* Says that a commit is written: who reads under its stamp sees it from now on. Answers -ENOENT where no commit with this stamp is
 * pending. */
static inline int tt_pending_written(tt_pending *table, uint64_t stamp_ns) { return tt_pending_end(table, stamp_ns); }

/* Says that a commit is never written. Answers -ENOENT where no commit with this stamp is pending. */
static inline int tt_pending_give_up(tt_pending *table, uint64_t stamp_ns) { return tt_pending_end(table, stamp_ns); }

/* Waits until the stamp of a commit that is written has surely passed, as tt_stamper_wait_past: only then may anybody be told.
 * Answers -EBUSY where it is not written, with false. */
static inline int tt_pending_release(tt_pending *table, uint64_t stamp_ns, uint64_t deadline_ns, bool *is_past) {
    *is_past = false;
    pthread_mutex_lock(&table->lock);
    bool is_pending = tt_pending_place(table, stamp_ns) < table->used;
    pthread_mutex_unlock(&table->lock);
    return is_pending ? -EBUSY : tt_stamper_wait_past(table->stamper, stamp_ns, deadline_ns, is_past);
}

/* The greatest time that has surely passed and up to which all commits are written, and false where there is none. Refuses as tt_now
 * does, with false. */
static inline int tt_pending_watermark(tt_pending *table, uint64_t *t_ns, bool *is_one) {
    tt_reading now;
    pthread_mutex_lock(&table->lock);
    /* Whoever begins a commit behind this reading gets a stamp that is no less than its earliest. */
    int refused = tt_now(table->stamper->client, &now);
    uint64_t bound_ns = refused == 0 ? now.earliest_ns : 0;
    if (table->used > 0 && table->stamps[0] < bound_ns) bound_ns = table->stamps[0];
    pthread_mutex_unlock(&table->lock);
    *is_one = bound_ns > 0;
    *t_ns = bound_ns > 0 ? bound_ns - 1 : 0;
    return refused;
}

/* Waits until a time has surely passed and all commits up to it are written, or CLOCK_MONOTONIC is at the deadline: with false then.
 * UINT64_MAX is no deadline. Refuses as tt_now does, with false. */
static inline int tt_pending_make_readable(tt_pending *table, uint64_t t_ns, uint64_t deadline_ns, bool *is_readable) {
    struct timespec deadline;
    int refused = tt_stamper_wait_past(table->stamper, t_ns, deadline_ns, is_readable), waited = 0;
    if (refused != 0 || !*is_readable) return refused;
    deadline.tv_sec = (time_t)(deadline_ns / 1000000000);
    deadline.tv_nsec = (long)(deadline_ns % 1000000000);
    pthread_mutex_lock(&table->lock);
    while (table->used > 0 && table->stamps[0] <= t_ns && waited == 0)
        waited = deadline_ns == UINT64_MAX ? pthread_cond_wait(&table->changed, &table->lock)
                                           : pthread_cond_timedwait(&table->changed, &table->lock, &deadline);
    *is_readable = table->used == 0 || table->stamps[0] > t_ns;
    pthread_mutex_unlock(&table->lock);
    return 0;
}

#ifdef __cplusplus
}
#endif

#endif
