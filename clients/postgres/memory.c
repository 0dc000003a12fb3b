/* memory.c: the shared memory. */
#include "truetime_pg.h"

#include "access/xlog.h"
#include "miscadmin.h"
#include "replication/slot.h"
#include "storage/backendid.h"
#include "storage/ipc.h"
#include "storage/shmem.h"

TtpgShared *ttpg_shared = NULL;

static shmem_request_hook_type previous_request = NULL;
static shmem_startup_hook_type previous_startup = NULL;

static Size pending_at(void) { return MAXALIGN(sizeof(TtpgShared)); }
static Size users_at(void) { return pending_at() + MAXALIGN(sizeof(pg_atomic_uint64) * (Size)MaxBackends); }
static Size size_of_all(void) { return users_at() + MAXALIGN(sizeof(pg_atomic_uint32) * (Size)max_replication_slots); }

static void request(void) {
    if (previous_request) previous_request();
    RequestAddinShmemSpace(size_of_all());
    RequestNamedLWLockTranche("truetime", 1);
}

static void set_up(TtpgShared *shared) {
    memset(shared, 0, size_of_all());
    shared->lock = &GetNamedLWLockTranche("truetime")->lock;
    shared->backends = MaxBackends;
    shared->origins = max_replication_slots;
    shared->pending = (pg_atomic_uint64 *)((char *)shared + pending_at());
    shared->users = (pg_atomic_uint32 *)((char *)shared + users_at());
    pg_atomic_init_u64(&shared->bound_ns, 0);
    pg_atomic_init_u32(&shared->bound_state, TTPG_MISSING);
    pg_atomic_init_u64(&shared->closed_ns, 0);
    pg_atomic_init_u32(&shared->is_begun, 0);
    pg_atomic_init_u64(&shared->watermark_ns, 0);
    pg_atomic_init_u64(&shared->stamps, 0);
    pg_atomic_init_u64(&shared->waited_ns, 0);
    for (int slot = 0; slot < shared->backends; slot++) pg_atomic_init_u64(&shared->pending[slot], 0);
    for (int number = 0; number < shared->origins; number++) pg_atomic_init_u32(&shared->users[number], 0);
}

/* After an orderly end the next start goes on just above the last stamp. */
static void at_exit(int code, Datum arg) {
    (void)arg;
    if (code == 0 && ttpg_shared != NULL && !RecoveryInProgress()) ttpg_keep_last_stamp();
}

static void startup(void) {
    bool is_found;
    if (previous_startup) previous_startup();
    LWLockAcquire(AddinShmemInitLock, LW_EXCLUSIVE);
    ttpg_shared = ShmemInitStruct("truetime", size_of_all(), &is_found);
    if (!is_found) {
        set_up(ttpg_shared);
        ttpg_start_bound();
    }
    LWLockRelease(AddinShmemInitLock);
    if (!IsUnderPostmaster) on_shmem_exit(at_exit, (Datum)0);
    if (ttpg_origins && !IsUnderPostmaster && max_replication_slots < MaxConnections)
        ereport(LOG, (errmsg("truetime: max_replication_slots is below max_connections"),
                      errdetail("At most %d sessions at once can have stamped transactions.", max_replication_slots)));
}

void ttpg_register_memory(void) {
    previous_request = shmem_request_hook;
    shmem_request_hook = request;
    previous_startup = shmem_startup_hook;
    shmem_startup_hook = startup;
}

/* The place of this backend's pending stamp. */
pg_atomic_uint64 *ttpg_own_slot(void) {
    if (ttpg_shared == NULL)
        ereport(ERROR, (errcode(ERRCODE_OBJECT_NOT_IN_PREREQUISITE_STATE), errmsg("truetime has to be in shared_preload_libraries")));
    if (MyBackendId < 1 || MyBackendId > ttpg_shared->backends) elog(ERROR, "truetime: this process has no stamps");
    return &ttpg_shared->pending[MyBackendId - 1];
}
