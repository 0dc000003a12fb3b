/* transactions.c: which transactions have a stamp, and what happens at their commit. */
#include "truetime_pg.h"

#include "access/parallel.h"
#include "access/xact.h"
#include "catalog/objectaccess.h"
#include "catalog/pg_proc.h"
#include "common/hashfn.h"
#include "executor/executor.h"
#include "miscadmin.h"
#include "storage/lock.h"
#include "storage/proc.h"
#include "tcop/utility.h"
#include "utils/fmgroids.h"

/* Of this transaction. */
static bool is_asked = false; /* it is to have a stamp */
static uint64 asked_floor = 0;
static uint64 own_stamp = 0;  /* once taken */
static bool is_told = false;  /* it was told before the end: nothing may be written or locked any more */
static CommandId told_at;
static uint64 told_locks;
static bool is_ready = false; /* the stamp has passed, and the commit record carries it */
static CommandId ready_at;

static bool is_running = false; /* our callback, until the end of the transaction */

static ProcessUtility_hook_type previous_utility = NULL;
static ExecutorEnd_hook_type previous_end = NULL;
static object_access_hook_type previous_access = NULL;

static void forget(bool is_committed) {
    if (is_asked) ttpg_drop_stamp();
    ttpg_end_of_origins(is_committed);
    is_asked = is_told = is_ready = false;
    asked_floor = own_stamp = 0;
}

/* A sum over the locks of this backend that a statement may wait for and that write no tuple: of tables, in the modes in which nobody
 * reads or writes them, and advisory ones. */
static uint64 locks_held(void) {
    uint64 sum = 0;
    const LOCKMASK strong = ~(LOCKMASK)(LOCKBIT_ON(AccessShareLock) | LOCKBIT_ON(RowShareLock) | LOCKBIT_ON(RowExclusiveLock));
    for (uint32 partition = 0; partition < NUM_LOCK_PARTITIONS; partition++) {
        SHM_QUEUE *all = &MyProc->myProcLocks[partition];
        LWLock *lock = LockHashPartitionLockByIndex(partition);
        LWLockAcquire(lock, LW_SHARED);
        for (PROCLOCK *held = (PROCLOCK *)SHMQueueNext(all, all, offsetof(PROCLOCK, procLink)); held != NULL;
             held = (PROCLOCK *)SHMQueueNext(all, &held->procLink, offsetof(PROCLOCK, procLink))) {
            const LOCKTAG *tag = &held->tag.myLock->tag;
            LOCKMASK modes = tag->locktag_type == LOCKTAG_ADVISORY ? held->holdMask : held->holdMask & strong;
            if (modes != 0 && (tag->locktag_type == LOCKTAG_ADVISORY || tag->locktag_type == LOCKTAG_RELATION))
                sum += hash_bytes_extended((const unsigned char *)tag, sizeof *tag, (uint64)modes);
        }
        LWLockRelease(lock);
    }
    return sum;
}

/* Counts what was written or row-locked, also by the command that is running. */
static CommandId command_now(void) {
    CommandCounterIncrement();
    return GetCurrentCommandId(false);
}

static void check_told(void) {
    if (told_at != command_now() || told_locks != locks_held())
        ereport(ERROR, (errcode(ERRCODE_OBJECT_NOT_IN_PREREQUISITE_STATE), errmsg("truetime: the transaction went on after it was told its stamp"),
                        errhint("Call truetime.commit_timestamp() as the last statement, or truetime.request() instead.")));
}

static bool is_one_for_all(void) {
    return ttpg_stamp_which == TTPG_STAMP_ALL && !IsBinaryUpgrade && TransactionIdIsValid(GetTopTransactionIdIfAny()) &&
           (MyBackendType == B_BACKEND || MyBackendType == B_WAL_SENDER);
}

/* Before the commit record, with all locks held. */
static void get_ready(bool is_prepare) {
    if (is_told) check_told();
    if (own_stamp == 0) own_stamp = ttpg_take_stamp(asked_floor);
    if (ttpg_commit_wait) ttpg_wait_past(own_stamp);
    if (is_prepare) ttpg_keep_prepared_stamp(own_stamp);
    else ttpg_mark_commit_record(own_stamp);
    ttpg_tell(own_stamp);
    ready_at = command_now();
    is_ready = true;
}

static void before_commit(bool is_prepare) {
    if (!is_asked && is_one_for_all()) is_asked = true;
    if (!is_asked) return;
    if (!is_ready) get_ready(is_prepare);
    else if (ready_at != command_now())
        ereport(ERROR, (errcode(ERRCODE_OBJECT_NOT_IN_PREREQUISITE_STATE),
                        errmsg("truetime: another library wrote in this transaction after its stamp was taken")));
}

/* It is registered twice: once when the library is loaded, so that no transaction is without it, and once more, by come_first. */
static void on_transaction(XactEvent event, void *arg) {
    (void)arg;
    is_running = event == XACT_EVENT_PRE_COMMIT || event == XACT_EVENT_PRE_PREPARE;
    switch (event) {
        case XACT_EVENT_PRE_COMMIT:
        case XACT_EVENT_PRE_PREPARE: before_commit(event == XACT_EVENT_PRE_PREPARE); break;
        case XACT_EVENT_COMMIT:
        case XACT_EVENT_ABORT:
        case XACT_EVENT_PREPARE: forget(event != XACT_EVENT_ABORT); break;
        case XACT_EVENT_PARALLEL_PRE_COMMIT: /* the leader has the transaction's stamp */
        case XACT_EVENT_PARALLEL_COMMIT:
        case XACT_EVENT_PARALLEL_ABORT: break;
    }
}

/* Has our callback called before those of other libraries, since the last registered one is the first: postgres_fdw, which registers its
 * own when it first connects, commits on the other server in it, and that has to come behind the wait. */
static void come_first(void) {
    static int second;
    if (is_running) return;
    UnregisterXactCallback(on_transaction, &second);
    RegisterXactCallback(on_transaction, &second);
}

static bool may_be_stamped(void) { return is_asked || ttpg_stamp_which == TTPG_STAMP_ALL; }

/* Calls of functions. */

static void refuse_off(void) {
    if (ttpg_stamp_which == TTPG_STAMP_OFF)
        ereport(ERROR, (errcode(ERRCODE_OBJECT_NOT_IN_PREREQUISITE_STATE), errmsg("truetime.stamp is off")));
}

/* Has this transaction get a stamp at its commit, no lower than the floor. */
void ttpg_ask(uint64 floor) {
    (void)ttpg_own_slot();
    refuse_off();
    if (is_told && floor > own_stamp)
        ereport(ERROR, (errcode(ERRCODE_OBJECT_NOT_IN_PREREQUISITE_STATE), errmsg("truetime: this transaction has a lower stamp already")));
    is_asked = true;
    asked_floor = Max(asked_floor, floor);
    come_first();
}

static void be_told(uint64 stamp) {
    own_stamp = stamp;
    is_told = true;
    told_at = GetCurrentCommandId(false);
    told_locks = locks_held();
    ttpg_limit_idle();
}

/* The stamp of this transaction, which is taken now. */
uint64 ttpg_told_stamp(uint64 floor) {
    if (!is_told) {
        ttpg_ask(0);
        be_told(ttpg_take_stamp(Max(asked_floor, floor)));
    } else
        ttpg_ask(floor);
    return own_stamp;
}

/* Has this transaction have a stamp that another server gave. */
void ttpg_adopt(uint64 stamp) {
    ttpg_ask(0);
    if (is_told)
        ereport(ERROR, (errcode(ERRCODE_OBJECT_NOT_IN_PREREQUISITE_STATE), errmsg("truetime: this transaction has a stamp already")));
    ttpg_adopt_stamp(stamp, asked_floor);
    be_told(stamp);
}

/* Hooks. */

/* COMMIT PREPARED, whose record carries the stamp that PREPARE took. */
static void mark_prepared(const char *gid) {
    uint64 stamp = ttpg_origins && ttpg_shared != NULL ? ttpg_stamp_of_prepared(gid) : 0;
    if (stamp == 0) return;
    ttpg_mark_commit_record(stamp);
    ttpg_tell(stamp);
}

static void on_utility(PlannedStmt *planned, const char *text, bool is_read_only, ProcessUtilityContext context, ParamListInfo parameters,
                       QueryEnvironment *environment, DestReceiver *receiver, QueryCompletion *completion) {
    const TransactionStmt *statement = IsA(planned->utilityStmt, TransactionStmt) ? (const TransactionStmt *)planned->utilityStmt : NULL;
    /* Its transaction gets its number behind our callback, so it has to be asked for here. */
    if (IsA(planned->utilityStmt, NotifyStmt) && ttpg_stamp_which == TTPG_STAMP_ALL) ttpg_ask(0);
    if (statement != NULL && may_be_stamped()) come_first();
    if (statement != NULL && statement->kind == TRANS_STMT_COMMIT_PREPARED) mark_prepared(statement->gid);
    PG_TRY();
    {
        (previous_utility ? previous_utility : standard_ProcessUtility)(planned, text, is_read_only, context, parameters, environment, receiver,
                                                                       completion);
    }
    PG_FINALLY();
    {
        if (statement != NULL && statement->kind == TRANS_STMT_COMMIT_PREPARED) ttpg_unmark_commit_record();
    }
    PG_END_TRY();
}

static void on_executor_end(QueryDesc *query) {
    (previous_end ? previous_end : standard_ExecutorEnd)(query);
    if (may_be_stamped()) come_first();
}

/* A function is about to be called. */
static void on_access(ObjectAccessType access, Oid class, Oid object, int part, void *arg) {
    if (previous_access) previous_access(access, class, object, part, arg);
    if (access != OAT_FUNCTION_EXECUTE || class != ProcedureRelationId || IsParallelWorker()) return;
    if (object == F_PG_NOTIFY && ttpg_stamp_which == TTPG_STAMP_ALL) ttpg_ask(0); /* it is as NOTIFY */
    if (object == F_PG_REPLICATION_ORIGIN_SESSION_SETUP) ttpg_let_origin_go();
    if (object == F_PG_REPLICATION_ORIGIN_SESSION_RESET) ttpg_keep_origin();
}

void ttpg_register_callbacks(void) {
    RegisterXactCallback(on_transaction, NULL);
    previous_utility = ProcessUtility_hook;
    ProcessUtility_hook = on_utility;
    previous_end = ExecutorEnd_hook;
    ExecutorEnd_hook = on_executor_end;
    previous_access = object_access_hook;
    object_access_hook = on_access;
}
