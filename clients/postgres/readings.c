/* readings.c: readings of the time, refusals, and waits that a backend can be called out of. */
#include "truetime_pg.h"

#include <time.h>

#include "access/xlog.h"
#include "miscadmin.h"
#include "pgstat.h"
#include "storage/fd.h"
#include "storage/latch.h"
#include "utils/wait_event.h"

/* The latch counts in milliseconds, so less than this is slept without it. */
#define SHORT_NS (10 * TTPG_MS)
#define RETRY_NS (5 * TTPG_MS)

static tt_client client; /* of this process */
static tt_stamper stamper;
static bool is_open = false;

/* An error with the SQLSTATE T and the service's number in four digits. */
void ttpg_refuse(int refusal) {
    int state = MAKE_SQLSTATE('T', '0' + refusal / 1000 % 10, '0' + refusal / 100 % 10, '0' + refusal / 10 % 10, '0' + refusal % 10);
    bool is_stamp = refusal == TT_USED_UP || refusal == TT_FLOOR_TOO_FAR || refusal == TT_LEASE_OVER;
    ereport(ERROR, (errcode(state), errmsg(is_stamp ? "truetime: no stamp: %s" : "truetime: no time: %s", tt_strerror(refusal)),
                    is_open || is_stamp ? errdetail("Refusal %d of the time service.", refusal)
                                        : errdetail("Refusal %d, file \"%s\": %s.", refusal, ttpg_path, tt_cause(&client)),
                    is_open || is_stamp ? 0
                                        : errhint("truetime.shared is what a machine on this host has as \"shared\", truetime.owner who runs it.")));
}

void ttpg_refuse_long(uint64 stamp, const tt_reading *now) {
    ereport(ERROR, (errcode(TTPG_TOO_LONG), errmsg("truetime: the stamp does not pass within truetime.max_wait"),
                    errdetail("It is " UINT64_FORMAT " ns ahead of the earliest, and the reading is " UINT64_FORMAT " ns wide.",
                              stamp > now->earliest_ns ? stamp - now->earliest_ns : 0, now->latest_ns - now->earliest_ns)));
}

/* CLOCK_MONOTONIC, for how long something lasts. */
uint64 ttpg_clock(void) {
    uint64_t now = 0;
    (void)tt_clock(&now);
    return now;
}

/* Sleeps so long, but less if a signal or the latch says that there is something to do. */
void ttpg_pause(uint64 ns) {
    pgstat_report_wait_start(PG_WAIT_EXTENSION);
    if (ns >= SHORT_NS) {
        (void)WaitLatch(MyLatch, WL_LATCH_SET | WL_TIMEOUT | WL_EXIT_ON_PM_DEATH, (long)(ns / TTPG_MS), PG_WAIT_EXTENSION);
        ResetLatch(MyLatch);
    } else {
        struct timespec pause = {0, (long)ns};
        nanosleep(&pause, NULL);
    }
    pgstat_report_wait_end();
}

/* Opens the file. It is not mapped: one that is truncated would end the backend by SIGBUS, and so all of the cluster's. */
static int open_file(void) {
    if (is_open) return 0;
    if (client.place != NULL) tt_close(&client);
    int refusal = tt_open_unmapped(&client, ttpg_path, ttpg_owner);
    if (refusal != 0) return refusal;
    ReserveExternalFD();
    refusal = tt_stamper_open(&stamper, &client, ttpg_lease_lo, ttpg_lease_lo);
    if (refusal != 0 || tt_stamper_limit(&stamper, TT_AHEAD_NS, TTPG_GRID_NS) != 0) elog(ERROR, "truetime: no stamper");
    tt_stamper_share(&stamper, &ttpg_shared->least_free_ns);
    is_open = true;
    return 0;
}

/* The stamper of this process, whose file is open: its lease ends where the durable bound is. */
tt_stamper *ttpg_stamper(void) {
    (void)tt_stamper_extend(&stamper, Min(pg_atomic_read_u64(&ttpg_shared->bound_ns), ttpg_lease_hi));
    return &stamper;
}

static int try_now(tt_reading *now) {
    int refusal = open_file();
    return refusal != 0 ? refusal : tt_now(&client, now);
}

/* A reading, or an error. */
void ttpg_read(tt_reading *now) {
    int refusal = try_now(now);
    if (refusal != 0) ttpg_refuse(refusal);
}

/* Whether somebody who waits since then may go on for want of a reading. */
static void be_patient(int refusal, uint64 *began) {
    if (*began == 0) *began = ttpg_clock();
    if (refusal == TT_OTHER_FILE || ttpg_clock() - *began >= (uint64)ttpg_patience_ms * TTPG_MS) ttpg_refuse(refusal);
    CHECK_FOR_INTERRUPTS();
    ttpg_pause(RETRY_NS);
}

/* A reading, after some tries while there is none: a machine that starts anew needs a moment. */
void ttpg_read_patiently(tt_reading *now) {
    uint64 began = 0;
    for (int refusal = try_now(now); refusal != 0; refusal = try_now(now)) be_patient(refusal, &began);
}

/* Waits until a time has surely passed, at most truetime.max_wait. */
void ttpg_wait_past(uint64 stamp) {
    uint64 began = ttpg_clock(), without = 0, waited;
    for (;;) {
        uint64_t sleep_ns = 0;
        int refusal = open_file();
        if (refusal == 0) refusal = tt_stamper_left(&stamper, stamp, &sleep_ns);
        waited = ttpg_clock() - began;
        if (refusal == 0 && sleep_ns == 0) break;
        if (refusal != 0) {
            be_patient(refusal, &without);
            continue;
        }
        without = 0;
        if (waited > (uint64)ttpg_max_wait_ms * TTPG_MS) {
            tt_reading now;
            ttpg_read(&now);
            ttpg_refuse_long(stamp, &now);
        }
        CHECK_FOR_INTERRUPTS();
        ttpg_pause(sleep_ns);
    }
    pg_atomic_fetch_add_u64(&ttpg_shared->waited_ns, waited);
}
