/* truetime_pg.h: what the files of the extension share.
 *
 * A transaction that is to have a stamp gets it in the callback of XACT_EVENT_PRE_COMMIT, behind all deferred triggers, when it holds
 * all its locks. There it waits until the stamp has surely passed: before the commit record, so neither a reader, nor a standby, nor a
 * decoder, nor a recovery sees it sooner. Each failure until then is an ordinary error of COMMIT, and the transaction is rolled back.
 *
 * Times are nanoseconds. A call that fails raises an error, as PostgreSQL's own do.
 */
#ifndef TRUETIME_PG_H
#define TRUETIME_PG_H

#include "postgres.h"

#include "access/xlogdefs.h"
#include "port/atomics.h"
#include "storage/lwlock.h"

#include "truetime_stamper.h"

#if PG_VERSION_NUM < 150000 || PG_VERSION_NUM >= 160000
#error "truetime was written for, and tried with, PostgreSQL 15"
#endif

/* A commit record keeps whole microseconds. */
#define TTPG_GRID_NS 1000
#define TTPG_MS UINT64CONST(1000000)

/* Beside T and the service's number in four digits. */
#define TTPG_TOO_LONG MAKE_SQLSTATE('T', 'W', '0', '0', '1') /* the stamp does not pass within truetime.max_wait */
#define TTPG_HELD_UP MAKE_SQLSTATE('T', 'W', '0', '0', '2')  /* a pending transaction, or no watermark, holds a snapshot up */
#define TTPG_NO_BOUND MAKE_SQLSTATE('T', 'B', '0', '0', '1') /* it is not known which stamps were given under this lease */

/* In `pending`: a stamp is being taken, it may be any. */
#define TTPG_STAMPING UINT64CONST(1)

/* What the bound is: stamps are given in the first state alone. */
typedef enum { TTPG_OWN, TTPG_MISSING, TTPG_COPIED } TtpgBoundState;
typedef enum { TTPG_STAMP_OFF, TTPG_STAMP_ASKED, TTPG_STAMP_ALL } TtpgStampWhich;

/* What the processes of the cluster share. */
typedef struct TtpgShared {
    LWLock *lock;                  /* of whoever writes the bound */
    tt_atomic least_free_ns;       /* of the stampers of all backends */
    pg_atomic_uint64 bound_ns;     /* durable: no stamp above it was given */
    pg_atomic_uint32 bound_state;
    pg_atomic_uint64 closed_ns;    /* up to this no stamp may be adopted any more: a reader or a watermark relies on it */
    pg_atomic_uint32 is_begun;     /* whether ttpg_begin_stamps was called since the start */
    pg_atomic_uint64 watermark_ns; /* the last one that was replayed here */
    pg_atomic_uint64 stamps, waited_ns;
    int backends, origins;         /* the lengths of */
    pg_atomic_uint64 *pending;     /* of each backend: the stamp of its transaction, TTPG_STAMPING, or 0 */
    pg_atomic_uint32 *users;       /* of each origin: the process that has it, or 0 */
} TtpgShared;

/* settings.c */
extern char *ttpg_path;
extern uid_t ttpg_owner;
extern uint64 ttpg_lease_lo, ttpg_lease_hi;
extern bool ttpg_commit_wait, ttpg_origins, ttpg_log_bound;
extern int ttpg_stamp_which, ttpg_patience_ms, ttpg_max_wait_ms;
extern void ttpg_tell(uint64 stamp);
extern void ttpg_limit_idle(void);

/* memory.c */
extern TtpgShared *ttpg_shared;
extern void ttpg_register_memory(void);
extern pg_atomic_uint64 *ttpg_own_slot(void);

/* bound.c */
extern void ttpg_register_records(void);
extern void ttpg_start_bound(void);
extern void ttpg_keep_last_stamp(void);
extern void ttpg_check_bound(void);
extern void ttpg_extend_bound(uint64 least);
extern void ttpg_extend_bound_in_time(uint64 stamp);
extern void ttpg_claim_bound(uint64 least);
extern XLogRecPtr ttpg_log_watermark(uint64 t);

/* readings.c */
extern void ttpg_refuse(int refusal) pg_attribute_noreturn();
extern void ttpg_refuse_long(uint64 stamp, const tt_reading *now) pg_attribute_noreturn();
extern uint64 ttpg_clock(void);
extern void ttpg_pause(uint64 ns);
extern tt_stamper *ttpg_stamper(void);
extern void ttpg_read(tt_reading *now);
extern void ttpg_read_patiently(tt_reading *now);
extern void ttpg_wait_past(uint64 stamp);

/* stamps.c */
extern void ttpg_begin_stamps(const tt_reading *now);
extern uint64 ttpg_take_stamp(uint64 floor);
extern void ttpg_adopt_stamp(uint64 stamp, uint64 floor);
extern void ttpg_drop_stamp(void);
extern void ttpg_wait_pending(uint64 t);
extern uint64 ttpg_least_pending(uint64 t);

/* prepared.c */
typedef struct TtpgPrepared {
    TransactionId xid;
    uint64 stamp;
} TtpgPrepared;
extern void ttpg_keep_prepared_stamp(uint64 stamp);
extern TtpgPrepared *ttpg_prepared(int *number);
extern uint64 ttpg_stamp_of_prepared(const char *gid);

/* origins.c */
extern void ttpg_mark_commit_record(uint64 stamp);
extern void ttpg_unmark_commit_record(void);
extern uint64 ttpg_greatest_in_origins(void);
extern void ttpg_let_origin_go(void);
extern void ttpg_keep_origin(void);
extern void ttpg_end_of_origins(bool is_committed);

/* transactions.c */
extern void ttpg_register_callbacks(void);
extern void ttpg_ask(uint64 floor);
extern uint64 ttpg_told_stamp(uint64 floor);
extern void ttpg_adopt(uint64 stamp);

#endif
