/* functions.c: the functions of SQL. */
#include "truetime_pg.h"

#include "access/htup_details.h"
#include "access/xact.h"
#include "access/xlog.h"
#include "fmgr.h"
#include "funcapi.h"
#include "miscadmin.h"
#include "replication/message.h"
#include "storage/proc.h"
#include "storage/sinvaladt.h"
#include "utils/builtins.h"
#include "utils/tuplestore.h"

static uint64 time_of(int64 t) {
    if (t < 0 || (uint64)t > TT_MAX_TIME_NS)
        ereport(ERROR, (errcode(ERRCODE_NUMERIC_VALUE_OUT_OF_RANGE), errmsg("truetime: a time is from 0 to " UINT64_FORMAT, TT_MAX_TIME_NS)));
    return (uint64)t;
}

static TupleDesc row_type(FunctionCallInfo fcinfo) {
    TupleDesc desc;
    if (get_call_result_type(fcinfo, NULL, &desc) != TYPEFUNC_COMPOSITE) elog(ERROR, "return type must be a row type");
    return BlessTupleDesc(desc);
}

PG_FUNCTION_INFO_V1(ttpg_sql_now);
Datum ttpg_sql_now(PG_FUNCTION_ARGS) {
    tt_reading now;
    bool nulls[3] = {false};
    (void)ttpg_own_slot();
    ttpg_read(&now);
    ttpg_begin_stamps(&now); /* so that a stamp above `latest` can be adopted */
    Datum values[3] = {Int64GetDatum((int64)now.earliest_ns), Int64GetDatum((int64)now.latest_ns), BoolGetDatum(now.fresh)};
    PG_RETURN_DATUM(HeapTupleGetDatum(heap_form_tuple(row_type(fcinfo), values, nulls)));
}

PG_FUNCTION_INFO_V1(ttpg_sql_after);
Datum ttpg_sql_after(PG_FUNCTION_ARGS) {
    tt_reading now;
    uint64 t = time_of(PG_GETARG_INT64(0));
    (void)ttpg_own_slot();
    ttpg_read(&now);
    PG_RETURN_BOOL(tt_after(&now, t));
}

PG_FUNCTION_INFO_V1(ttpg_sql_before);
Datum ttpg_sql_before(PG_FUNCTION_ARGS) {
    tt_reading now;
    uint64 t = time_of(PG_GETARG_INT64(0));
    (void)ttpg_own_slot();
    ttpg_read(&now);
    PG_RETURN_BOOL(tt_before(&now, t));
}

PG_FUNCTION_INFO_V1(ttpg_sql_wait_past);
Datum ttpg_sql_wait_past(PG_FUNCTION_ARGS) {
    (void)ttpg_own_slot();
    ttpg_wait_past(time_of(PG_GETARG_INT64(0)));
    PG_RETURN_VOID();
}

/* A standby knows by watermarks alone which transactions are pending. */
static void wait_for_watermark(uint64 t) {
    uint64 began = ttpg_clock();
    if (!ttpg_log_bound)
        ereport(ERROR, (errcode(ERRCODE_FEATURE_NOT_SUPPORTED), errmsg("truetime: a standby gets watermarks with truetime.log_bound alone")));
    while (pg_atomic_read_u64(&ttpg_shared->watermark_ns) < t) {
        if (ttpg_clock() - began > (uint64)ttpg_max_wait_ms * TTPG_MS)
            ereport(ERROR, (errcode(TTPG_HELD_UP), errmsg("truetime: no watermark up to this time came within truetime.max_wait"),
                            errhint("Call truetime.emit_watermark() on the primary from time to time.")));
        CHECK_FOR_INTERRUPTS();
        ttpg_pause(TTPG_MS);
    }
}

PG_FUNCTION_INFO_V1(ttpg_sql_make_readable);
Datum ttpg_sql_make_readable(PG_FUNCTION_ARGS) {
    uint64 t = time_of(PG_GETARG_INT64(0));
    (void)ttpg_own_slot();
    if (IsolationUsesXactSnapshot())
        ereport(ERROR, (errcode(ERRCODE_ACTIVE_SQL_TRANSACTION), errmsg("truetime: this transaction has its snapshot already"),
                        errhint("Call truetime.make_readable() before it begins.")));
    if (RecoveryInProgress()) {
        wait_for_watermark(t);
        PG_RETURN_VOID();
    }
    ttpg_wait_past(t); /* whoever takes a stamp from now on gets a greater one */
    ttpg_wait_pending(t);
    PG_RETURN_VOID();
}

PG_FUNCTION_INFO_V1(ttpg_sql_request);
Datum ttpg_sql_request(PG_FUNCTION_ARGS) {
    ttpg_ask(PG_NARGS() > 0 ? time_of(PG_GETARG_INT64(0)) : 0);
    PG_RETURN_VOID();
}

PG_FUNCTION_INFO_V1(ttpg_sql_commit_timestamp);
Datum ttpg_sql_commit_timestamp(PG_FUNCTION_ARGS) {
    PG_RETURN_INT64((int64)ttpg_told_stamp(PG_NARGS() > 0 ? time_of(PG_GETARG_INT64(0)) : 0));
}

PG_FUNCTION_INFO_V1(ttpg_sql_adopt);
Datum ttpg_sql_adopt(PG_FUNCTION_ARGS) {
    ttpg_adopt(time_of(PG_GETARG_INT64(0)));
    PG_RETURN_INT64(PG_GETARG_INT64(0));
}

PG_FUNCTION_INFO_V1(ttpg_sql_emit_watermark);
Datum ttpg_sql_emit_watermark(PG_FUNCTION_ARGS) {
    tt_reading now;
    char text[24];
    (void)fcinfo;
    (void)ttpg_own_slot();
    if (RecoveryInProgress()) ereport(ERROR, (errcode(ERRCODE_READ_ONLY_SQL_TRANSACTION), errmsg("truetime: a standby writes no watermark")));
    ttpg_read(&now); /* no stamp of a reading that is taken from now on is below its earliest */
    uint64 whole = ttpg_least_pending(now.earliest_ns) - 1;
    int length = snprintf(text, sizeof text, UINT64_FORMAT, whole);
    XLogRecPtr end = LogLogicalMessage("truetime.watermark", text, (size_t)length, false);
    if (ttpg_log_bound) end = ttpg_log_watermark(whole);
    XLogFlush(end);
    PG_RETURN_INT64((int64)whole);
}

PG_FUNCTION_INFO_V1(ttpg_sql_claim_lease);
Datum ttpg_sql_claim_lease(PG_FUNCTION_ARGS) {
    tt_reading now;
    (void)fcinfo;
    (void)ttpg_own_slot();
    if (RecoveryInProgress()) ereport(ERROR, (errcode(ERRCODE_READ_ONLY_SQL_TRANSACTION), errmsg("truetime: a standby has no lease")));
    ttpg_read(&now); /* no stamp was further ahead of the latest when it was taken */
    ttpg_claim_bound(now.latest_ns + TT_AHEAD_NS);
    PG_RETURN_VOID();
}

static const char *bound_state(void) {
    switch (pg_atomic_read_u32(&ttpg_shared->bound_state)) {
        case TTPG_OWN: return "own";
        case TTPG_MISSING: return "missing";
        default: return "copied";
    }
}

PG_FUNCTION_INFO_V1(ttpg_sql_status);
Datum ttpg_sql_status(PG_FUNCTION_ARGS) {
    bool nulls[7] = {false};
    int origins = 0;
    (void)ttpg_own_slot();
    for (int number = 0; number < ttpg_shared->origins; number++) origins += pg_atomic_read_u32(&ttpg_shared->users[number]) != 0;
    Datum values[7] = {PointerGetDatum(cstring_to_text(bound_state())),
                       Int64GetDatum((int64)pg_atomic_read_u64(&ttpg_shared->bound_ns)),
                       Int64GetDatum((int64)atomic_load(&ttpg_shared->least_free_ns)),
                       Int64GetDatum((int64)pg_atomic_read_u64(&ttpg_shared->stamps)),
                       Int64GetDatum((int64)pg_atomic_read_u64(&ttpg_shared->waited_ns)),
                       Int64GetDatum((int64)pg_atomic_read_u64(&ttpg_shared->watermark_ns)),
                       Int32GetDatum(origins)};
    PG_RETURN_DATUM(HeapTupleGetDatum(heap_form_tuple(row_type(fcinfo), values, nulls)));
}

static void put_row(const ReturnSetInfo *rows, int pid, TransactionId xid, uint64 stamp) {
    Datum values[3] = {Int32GetDatum(pid), TransactionIdGetDatum(xid), Int64GetDatum((int64)stamp)};
    bool nulls[3] = {pid == 0, !TransactionIdIsValid(xid), stamp == TTPG_STAMPING};
    tuplestore_putvalues(rows->setResult, rows->setDesc, values, nulls);
}

PG_FUNCTION_INFO_V1(ttpg_sql_pending);
Datum ttpg_sql_pending(PG_FUNCTION_ARGS) {
    int number;
    (void)ttpg_own_slot();
    InitMaterializedSRF(fcinfo, 0);
    for (int backend = 1; backend <= ttpg_shared->backends; backend++) {
        uint64 stamp = pg_atomic_read_u64(&ttpg_shared->pending[backend - 1]);
        PGPROC *process = stamp != 0 ? BackendIdGetProc(backend) : NULL;
        if (process != NULL) put_row((ReturnSetInfo *)fcinfo->resultinfo, process->pid, InvalidTransactionId, stamp);
    }
    TtpgPrepared *prepared = ttpg_prepared(&number);
    for (int place = 0; place < number; place++) put_row((ReturnSetInfo *)fcinfo->resultinfo, 0, prepared[place].xid, prepared[place].stamp);
    return (Datum)0;
}
