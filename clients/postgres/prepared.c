/* prepared.c: the stamps of prepared transactions.
 *
 * PREPARE TRANSACTION takes the stamp and waits, and COMMIT PREPARED writes the commit record, maybe after a crash, in another session,
 * or on a standby that was promoted. What PostgreSQL keeps of a prepared transaction through all of that, and any session can look up,
 * are its locks. So it takes one that nobody waits for: an advisory lock of a kind that no SQL function takes (objsubid 3 in pg_locks),
 * whose numbers are the transaction's and the stamp.
 */
#include "truetime_pg.h"

#include "access/twophase.h"
#include "access/xact.h"
#include "catalog/pg_type.h"
#include "executor/spi.h"
#include "storage/lock.h"
#include "utils/builtins.h"
#include "utils/snapmgr.h"

#define KIND_OF_STAMPS 3

/* Has the transaction that is about to be prepared keep its stamp. */
void ttpg_keep_prepared_stamp(uint64 stamp) {
    LOCKTAG tag;
    SET_LOCKTAG_ADVISORY(tag, GetTopTransactionId(), (uint32)(stamp >> 32), (uint32)stamp, KIND_OF_STAMPS);
    (void)LockAcquire(&tag, ShareLock, false, false);
}

/* All prepared transactions that have a stamp. */
TtpgPrepared *ttpg_prepared(int *number) {
    *number = 0;
    if (max_prepared_xacts == 0) return NULL;
    LockData *locks = GetLockStatusData();
    TtpgPrepared *found = palloc(sizeof(TtpgPrepared) * (size_t)(locks->nelements + 1));
    for (int place = 0; place < locks->nelements; place++) {
        const LockInstanceData *lock = &locks->locks[place];
        if (lock->locktag.locktag_type != LOCKTAG_ADVISORY || lock->locktag.locktag_field4 != KIND_OF_STAMPS) continue;
        found[*number].xid = lock->locktag.locktag_field1;
        found[*number].stamp = (uint64)lock->locktag.locktag_field2 << 32 | lock->locktag.locktag_field3;
        (*number)++;
    }
    pfree(locks->locks);
    pfree(locks);
    return found;
}

/* The transaction that is prepared under this name, or none. */
static TransactionId xid_of(const char *gid) {
    Oid type = TEXTOID;
    Datum name = CStringGetTextDatum(gid);
    bool is_null = true;
    TransactionId xid = InvalidTransactionId;
    PushActiveSnapshot(GetTransactionSnapshot());
    SPI_connect();
    if (SPI_execute_with_args("SELECT transaction FROM pg_catalog.pg_prepared_xacts WHERE gid = $1 AND database = pg_catalog.current_database()",
                              1, &type, &name, NULL, true, 1) != SPI_OK_SELECT)
        elog(ERROR, "truetime: no list of prepared transactions");
    if (SPI_processed == 1) xid = DatumGetTransactionId(SPI_getbinval(SPI_tuptable->vals[0], SPI_tuptable->tupdesc, 1, &is_null));
    SPI_finish();
    PopActiveSnapshot();
    return xid;
}

/* The stamp of the transaction that is prepared under this name, or 0. */
uint64 ttpg_stamp_of_prepared(const char *gid) {
    int number;
    TtpgPrepared *prepared = ttpg_prepared(&number);
    if (number == 0) return 0;
    TransactionId xid = xid_of(gid);
    for (int place = 0; place < number; place++)
        if (prepared[place].xid == xid) return prepared[place].stamp;
    return 0;
}
