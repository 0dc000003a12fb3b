/* origins.c: the stamp in the commit record, as the place and the time of a replication origin.
 *
 * PostgreSQL keeps both through recovery and on standbys: pg_xact_commit_timestamp, the commit time of pgoutput and of subscriptions,
 * and the greatest stamp of each origin in pg_replication_origin_status. An origin has one session at a time, so a backend takes a free
 * one of truetime/1, truetime/2 and so on when it first needs one.
 */
#include "truetime_pg.h"

#include "access/xact.h"
#include "datatype/timestamp.h"
#include "miscadmin.h"
#include "replication/origin.h"
#include "storage/ipc.h"

static int own_number = -1; /* of this backend, from 0 */
static RepOriginId own_origin = InvalidRepOriginId;
static bool is_new = false; /* set up in this transaction, which may have made it */

static void give_back(int code, Datum arg) {
    (void)code;
    (void)arg;
    if (own_number >= 0) pg_atomic_write_u32(&ttpg_shared->users[own_number], 0);
    own_number = -1;
}

/* Takes a free number. It is given back at the end of the process, behind PostgreSQL's own release of the origin, since the last
 * registered call comes first. */
static void take_number(void) {
    static bool is_registered = false;
    if (!is_registered) on_shmem_exit(give_back, (Datum)0);
    is_registered = true;
    for (int tried = 0; tried < ttpg_shared->origins; tried++) {
        int number = (MyBackendId - 1 + tried) % ttpg_shared->origins;
        uint32 nobody = 0;
        if (pg_atomic_compare_exchange_u32(&ttpg_shared->users[number], &nobody, (uint32)MyProcPid)) {
            own_number = number;
            return;
        }
    }
    ereport(ERROR, (errcode(ERRCODE_CONFIGURATION_LIMIT_EXCEEDED), errmsg("truetime: each of the %d replication origins has a session", ttpg_shared->origins),
                    errhint("Raise max_replication_slots to max_connections, and call truetime.create_origins().")));
}

static void take_origin(void) {
    char name[32];
    if (own_number < 0) take_number();
    snprintf(name, sizeof name, "truetime/%d", own_number + 1);
    RepOriginId found = replorigin_by_name(name, true);
    if (found == InvalidRepOriginId)
        ereport(ERROR, (errcode(ERRCODE_OBJECT_NOT_IN_PREREQUISITE_STATE), errmsg("truetime: there is no replication origin \"%s\"", name),
                        errhint("Call truetime.create_origins() as superuser.")));
    replorigin_session_setup(found);
    own_origin = found;
    is_new = true;
}

/* Lets the next commit record of this session carry a stamp. */
void ttpg_mark_commit_record(uint64 stamp) {
    if (!ttpg_origins) return;
    if (replorigin_session_origin != InvalidRepOriginId && replorigin_session_origin != own_origin)
        ereport(ERROR, (errcode(ERRCODE_OBJECT_NOT_IN_PREREQUISITE_STATE), errmsg("truetime: this session has a replication origin of its own")));
    if (own_origin == InvalidRepOriginId) take_origin();
    replorigin_session_origin = own_origin;
    replorigin_session_origin_lsn = stamp;
    replorigin_session_origin_timestamp =
        (TimestampTz)(stamp / 1000) - USECS_PER_DAY * (POSTGRES_EPOCH_JDATE - UNIX_EPOCH_JDATE);
}

void ttpg_unmark_commit_record(void) {
    if (own_origin == InvalidRepOriginId || replorigin_session_origin != own_origin) return;
    replorigin_session_origin = InvalidRepOriginId;
    replorigin_session_origin_lsn = InvalidXLogRecPtr;
    replorigin_session_origin_timestamp = 0;
}

/* The greatest stamp of all commit records, as PostgreSQL keeps it for each origin through recoveries and promotions. */
uint64 ttpg_greatest_in_origins(void) {
    uint64 greatest = 0;
    for (int number = 1; ttpg_origins && number <= ttpg_shared->origins; number++) {
        char name[32];
        snprintf(name, sizeof name, "truetime/%d", number);
        RepOriginId found = replorigin_by_name(name, true);
        if (found != InvalidRepOriginId) greatest = Max(greatest, replorigin_get_progress(found, false));
    }
    return greatest;
}

/* The session is about to set up an origin of its own, and one is all that it may have. */
void ttpg_let_origin_go(void) {
    if (own_origin == InvalidRepOriginId) return;
    replorigin_session_reset();
    own_origin = InvalidRepOriginId;
}

/* The session is about to give up its origin, and has none but ours. */
void ttpg_keep_origin(void) {
    if (own_origin != InvalidRepOriginId)
        ereport(ERROR, (errcode(ERRCODE_OBJECT_NOT_IN_PREREQUISITE_STATE), errmsg("truetime: this session has no replication origin of its own")));
}

/* At the end of a transaction. An origin that it made and that is rolled back is let go. */
void ttpg_end_of_origins(bool is_committed) {
    ttpg_unmark_commit_record();
    if (is_new && !is_committed) ttpg_let_origin_go();
    is_new = false;
}
