/* stamps.c: stamps, and which of them are pending.
 *
 * A backend says in its slot that it takes a stamp before it takes the reading for that. So who waits until a time has passed, and then
 * finds a slot empty, knows that its backend's next stamp is above that time.
 */
#include "truetime_pg.h"

#include "access/xlog.h"
#include "miscadmin.h"
#include "storage/proc.h"
#include "storage/procarray.h"
#include "storage/sinvaladt.h"

/* From one look to the next: at slots, and at the list of all locks, which takes longer. */
#define LOOK_NS UINT64CONST(200000)
#define LOOK_AT_LOCKS_NS (2 * TTPG_MS)

static void refuse_standby(void) {
    if (RecoveryInProgress())
        ereport(ERROR, (errcode(ERRCODE_READ_ONLY_SQL_TRANSACTION), errmsg("truetime: a standby gives no stamps")));
}

static void close_until(uint64 t) {
    uint64 there = pg_atomic_read_u64(&ttpg_shared->closed_ns);
    while (there < t && !pg_atomic_compare_exchange_u64(&ttpg_shared->closed_ns, &there, t)) {}
    pg_memory_barrier(); /* who adopts a stamp sees this, or is seen in its slot */
}

/* Before the first stamp after a start, or a promotion, or when somebody reads the time before that. Whoever read before the start did so
 * at a time that had passed, below `latest`; which one is not known any more. And what the bound may lack, on a standby that did not get it
 * or after claim_lease, the commit records have. */
void ttpg_begin_stamps(const tt_reading *now) {
    if (pg_atomic_read_u32(&ttpg_shared->is_begun) != 0 || RecoveryInProgress()) return;
    close_until(Max(now->latest_ns, 1) - 1);
    tt_raise(&ttpg_shared->least_free_ns, ttpg_greatest_in_origins() + 1);
    pg_atomic_write_u32(&ttpg_shared->is_begun, 1);
}

/* Of a reading that is taken here. No stamp is used up that would hold up all later ones. */
static uint64 stamp_by_reading(uint64 floor) {
    tt_reading now;
    uint64_t stamp;
    ttpg_read_patiently(&now);
    ttpg_begin_stamps(&now);
    if (floor > now.latest_ns + TT_AHEAD_NS) ttpg_refuse(TT_FLOOR_TOO_FAR);
    uint64 least = Max(Max(now.latest_ns, floor), ttpg_lease_lo);
    uint64 next = Max(least, atomic_load(&ttpg_shared->least_free_ns));
    if (ttpg_commit_wait && next > now.earliest_ns + (uint64)ttpg_max_wait_ms * TTPG_MS) ttpg_refuse_long(next, &now);
    for (;;) {
        int refusal = pg_atomic_read_u64(&ttpg_shared->bound_ns) < ttpg_lease_lo
                          ? TT_LEASE_OVER
                          : tt_stamper_stamp_at(ttpg_stamper(), &now, floor, &stamp);
        if (refusal == 0) return stamp;
        if (refusal != TT_LEASE_OVER) ttpg_refuse(refusal);
        ttpg_extend_bound(least);
    }
}

/* Takes a stamp of the cluster's lease, no lower than the floor: it is pending in this backend's slot from before its reading on. */
uint64 ttpg_take_stamp(uint64 floor) {
    volatile uint64 stamp = 0;
    pg_atomic_uint64 *slot = ttpg_own_slot();
    refuse_standby();
    ttpg_check_bound();
    pg_atomic_write_u64(slot, TTPG_STAMPING);
    pg_memory_barrier(); /* who reads a later time than we do sees the slot */
    PG_TRY();
    {
        stamp = stamp_by_reading(floor);
        pg_atomic_write_u64(slot, stamp);
        ttpg_extend_bound_in_time(stamp);
    }
    PG_CATCH();
    {
        pg_atomic_write_u64(slot, 0);
        PG_RE_THROW();
    }
    PG_END_TRY();
    pg_atomic_fetch_add_u64(&ttpg_shared->stamps, 1);
    return stamp;
}

/* Takes a stamp that another server gave, unless somebody has read at it or later here. */
void ttpg_adopt_stamp(uint64 stamp, uint64 floor) {
    tt_reading now;
    pg_atomic_uint64 *slot = ttpg_own_slot();
    refuse_standby();
    ttpg_check_bound();
    ttpg_read_patiently(&now);
    ttpg_begin_stamps(&now);
    if (stamp % TTPG_GRID_NS != 0)
        ereport(ERROR, (errcode(ERRCODE_INVALID_PARAMETER_VALUE), errmsg("truetime: a stamp is a multiple of %d ns", TTPG_GRID_NS)));
    if (stamp < floor || stamp > now.latest_ns + TT_AHEAD_NS) ttpg_refuse(TT_FLOOR_TOO_FAR);
    pg_atomic_write_u64(slot, stamp);
    pg_memory_barrier();
    if (stamp <= pg_atomic_read_u64(&ttpg_shared->closed_ns)) {
        pg_atomic_write_u64(slot, 0);
        ereport(ERROR, (errcode(ERRCODE_OBJECT_NOT_IN_PREREQUISITE_STATE),
                        errmsg("truetime: it is too late for this stamp: somebody has read at a later one"),
                        errhint("Do all of it again, with a floor: the greatest latest of all servers that take part.")));
    }
}

/* The transaction has ended, or is prepared: its stamp is pending here no more. */
void ttpg_drop_stamp(void) {
    if (ttpg_shared != NULL && MyBackendId >= 1 && MyBackendId <= ttpg_shared->backends) pg_atomic_write_u64(ttpg_own_slot(), 0);
}

/* A look later, unless truetime.max_wait is over. */
static void look_again(uint64 began, int backend, TransactionId xid) {
    PGPROC *process = backend > 0 ? BackendIdGetProc(backend) : NULL;
    if (ttpg_clock() - began > (uint64)ttpg_max_wait_ms * TTPG_MS)
        ereport(ERROR, (errcode(TTPG_HELD_UP), errmsg("truetime: a pending transaction holds this up for longer than truetime.max_wait"),
                        backend > 0 ? errdetail("Process %d has taken its stamp, and has not ended.", process != NULL ? process->pid : 0)
                                    : errdetail("Transaction %u is prepared.", xid),
                        errhint("truetime.pending lists all of them.")));
    CHECK_FOR_INTERRUPTS();
    ttpg_pause(backend > 0 ? LOOK_NS : LOOK_AT_LOCKS_NS);
}

/* Waits until no transaction is pending whose stamp may be up to this time, which has passed; then new snapshots have them all. */
void ttpg_wait_pending(uint64 t) {
    uint64 began = ttpg_clock();
    close_until(t);
    for (int backend = 1; backend <= ttpg_shared->backends; backend++) {
        pg_atomic_uint64 *slot = &ttpg_shared->pending[backend - 1];
        uint64 first = pg_atomic_read_u64(slot), there = first;
        if (backend == MyBackendId) continue;
        while (there != 0 && there <= t && there == first) {
            look_again(began, backend, InvalidTransactionId);
            there = pg_atomic_read_u64(slot);
            if (first == TTPG_STAMPING) first = there;
        }
    }
    for (;;) {
        int number, place = 0;
        TtpgPrepared *prepared = ttpg_prepared(&number);
        while (place < number && prepared[place].stamp > t) place++;
        if (place == number) return;
        look_again(began, 0, prepared[place].xid);
        pfree(prepared);
    }
}

/* The least stamp that a transaction may have whose commit record is not written, if it is below this time, or else the time. It is the
 * earliest of a reading that was taken before. */
uint64 ttpg_least_pending(uint64 t) {
    uint64 began = ttpg_clock();
    int number;
    close_until(t - 1);
    for (int backend = 1; backend <= ttpg_shared->backends; backend++) {
        uint64 there = pg_atomic_read_u64(&ttpg_shared->pending[backend - 1]);
        while (there == TTPG_STAMPING) {
            look_again(began, backend, InvalidTransactionId);
            there = pg_atomic_read_u64(&ttpg_shared->pending[backend - 1]);
        }
        if (there != 0 && there < t) t = there;
    }
    TtpgPrepared *prepared = ttpg_prepared(&number);
    for (int place = 0; place < number; place++) t = Min(t, prepared[place].stamp);
    return t;
}
