/* bound.c: the durable bound, below which all stamps are that were given under the lease, in $PGDATA/truetime.bound.
 *
 * With the commit wait each stamp has passed before its commit record is written, so a restart would need no bound. Stamps that were
 * told before the commit, floors and stamps without the wait do. It is set a second ahead, when half of that is used up.
 *
 * The file has two slots of a sector, and the older one is overwritten: a write that is torn leaves the other. Each says the file's own
 * number and birth, which a copy does not have: two clusters of one copy and one lease would give equal stamps.
 */
#include "truetime_pg.h"

#include <fcntl.h>
#include <sys/stat.h>
#include <unistd.h>

#include "access/rmgr.h"
#include "access/xlog.h"
#include "access/xlog_internal.h"
#include "access/xloginsert.h"
#include "port/pg_crc32c.h"
#include "storage/fd.h"

#define BOUND_FILE "truetime.bound"
#define SECTOR 512
#define RESERVE_NS UINT64CONST(1000000000)

enum { RECORD_BOUND = 0x00, RECORD_WATERMARK = 0x10 };

typedef struct Mark {
    uint64 number, born_ns;
} Mark;

typedef struct Slot {
    uint64 turn, bound; /* turn 0: there is none */
    Mark mark;
} Slot;

static Mark mark_of(int file) {
    struct statx found;
    Mark mark = {0, 0};
    if (statx(file, "", AT_EMPTY_PATH, STATX_INO | STATX_BTIME, &found) != 0)
        ereport(ERROR, (errcode_for_file_access(), errmsg("truetime: could not stat \"%s\": %m", BOUND_FILE)));
    mark.number = found.stx_ino;
    if (found.stx_mask & STATX_BTIME) mark.born_ns = (uint64)found.stx_btime.tv_sec * 1000000000 + found.stx_btime.tv_nsec;
    return mark;
}

static pg_crc32c crc_of(const char *text, int length) {
    pg_crc32c crc;
    INIT_CRC32C(crc);
    COMP_CRC32C(crc, text, (size_t)length);
    FIN_CRC32C(crc);
    return crc;
}

static Slot slot_in(const char *text) {
    Slot slot;
    unsigned int crc;
    int end = 0;
    if (sscanf(text, "TTB1 " UINT64_FORMAT " " UINT64_FORMAT " " UINT64_FORMAT " " UINT64_FORMAT "%n %8x", &slot.turn, &slot.bound,
               &slot.mark.number, &slot.mark.born_ns, &end, &crc) != 5 || crc != crc_of(text, end))
        memset(&slot, 0, sizeof slot);
    return slot;
}

/* The newer slot, and where the older one is. */
static Slot read_slots(int file, int *older) {
    char text[2 * SECTOR + 1] = {0};
    Slot slots[2];
    if (pg_pread(file, text, 2 * SECTOR, 0) < 0)
        ereport(ERROR, (errcode_for_file_access(), errmsg("truetime: could not read \"%s\": %m", BOUND_FILE)));
    slots[1] = slot_in(text + SECTOR);
    text[SECTOR] = 0;
    slots[0] = slot_in(text);
    *older = slots[0].turn > slots[1].turn;
    return slots[1 - *older];
}

static void write_bound(uint64 bound) {
    char text[SECTOR] = {0};
    int older;
    int file = OpenTransientFile(BOUND_FILE, O_RDWR | O_CREAT | PG_BINARY);
    if (file < 0) ereport(ERROR, (errcode_for_file_access(), errmsg("truetime: could not open \"%s\": %m", BOUND_FILE)));
    Slot last = read_slots(file, &older);
    Mark mark = mark_of(file);
    int length = snprintf(text, sizeof text, "TTB1 " UINT64_FORMAT " " UINT64_FORMAT " " UINT64_FORMAT " " UINT64_FORMAT, last.turn + 1,
                          bound, mark.number, mark.born_ns);
    snprintf(text + length, sizeof text - (size_t)length, " %08x\n", crc_of(text, length));
    if (pg_pwrite(file, text, sizeof text, SECTOR * older) != sizeof text || pg_fdatasync(file) != 0 || CloseTransientFile(file) != 0)
        ereport(ERROR, (errcode_for_file_access(), errmsg("truetime: could not write \"%s\": %m", BOUND_FILE)));
    if (last.turn == 0) fsync_fname(".", true);
}

/* The bound of the file, and whether it is this cluster's own. A file that holds none ends the start. */
static TtpgBoundState read_bound(uint64 *bound) {
    int older;
    *bound = 0;
    int file = OpenTransientFile(BOUND_FILE, O_RDONLY | PG_BINARY);
    if (file < 0 && errno == ENOENT) return TTPG_MISSING;
    if (file < 0) ereport(FATAL, (errcode_for_file_access(), errmsg("truetime: could not open \"%s\": %m", BOUND_FILE)));
    Slot last = read_slots(file, &older);
    Mark mark = mark_of(file);
    CloseTransientFile(file);
    if (last.turn == 0)
        ereport(FATAL, (errcode(ERRCODE_DATA_CORRUPTED), errmsg("truetime: \"%s\" holds no bound", BOUND_FILE),
                        errhint("Remove it, and call truetime.claim_lease() after the start.")));
    *bound = last.bound;
    return last.mark.number == mark.number && last.mark.born_ns == mark.born_ns ? TTPG_OWN : TTPG_COPIED;
}

static void show_bound(uint64 bound) {
    tt_raise(&ttpg_shared->least_free_ns, bound + 1);
    pg_atomic_write_u64(&ttpg_shared->bound_ns, bound);
}

static int hint(uint32 state) {
    return state == TTPG_MISSING
               ? errhint("CREATE EXTENSION truetime makes it in a new cluster. If it could not, or the file was lost, or pg_upgrade left it out, "
                         "call truetime.claim_lease().")
               : errhint("If the other one is gone for good, or truetime.lease is another now, call truetime.claim_lease().");
}

/* At the start of the server. A copy that begins as a standby is to take over from another server, not to run beside it. */
void ttpg_start_bound(void) {
    uint64 bound;
    TtpgBoundState state = read_bound(&bound);
    if (state != TTPG_OWN && access("standby.signal", F_OK) == 0) {
        write_bound(bound);
        state = TTPG_OWN;
    }
    show_bound(bound);
    pg_atomic_write_u32(&ttpg_shared->bound_state, state);
    if (state != TTPG_OWN)
        ereport(LOG, (errmsg(state == TTPG_MISSING ? "truetime: there is no \"%s\": no stamps are given" : "truetime: \"%s\" is a copy: no stamps are given", BOUND_FILE),
                      hint(state)));
}

/* At the end of the server, when no backend is left. */
void ttpg_keep_last_stamp(void) {
    uint64 next = atomic_load(&ttpg_shared->least_free_ns);
    if (next > 0 && pg_atomic_read_u32(&ttpg_shared->bound_state) == TTPG_OWN) write_bound(next - 1);
}

/* Refuses where it is not known which stamps were given under this lease. */
void ttpg_check_bound(void) {
    uint32 state = pg_atomic_read_u32(&ttpg_shared->bound_state);
    if (state == TTPG_MISSING)
        ereport(ERROR, (errcode(TTPG_NO_BOUND), errmsg("truetime: there is no \"%s\", so it is not known which stamps this cluster gave", BOUND_FILE),
                        hint(state)));
    if (state == TTPG_COPIED)
        ereport(ERROR, (errcode(TTPG_NO_BOUND), errmsg("truetime: \"%s\" is a copy, so another cluster may give stamps of this lease", BOUND_FILE),
                        hint(state)));
}

/* Sets the bound a second above a time, or at the end of the lease. With the lock. */
static void set_bound_above(uint64 least) {
    uint64 bound = Min(least + RESERVE_NS, ttpg_lease_hi);
    if (ttpg_log_bound) {
        XLogBeginInsert();
        XLogRegisterData((char *)&bound, sizeof bound);
        XLogFlush(XLogInsert(RM_EXPERIMENTAL_ID, RECORD_BOUND));
    }
    write_bound(bound);
    pg_atomic_write_u64(&ttpg_shared->bound_ns, bound);
}

static bool is_half_used(uint64 least) {
    uint64 bound = pg_atomic_read_u64(&ttpg_shared->bound_ns);
    return bound < least + RESERVE_NS / 2 && bound < ttpg_lease_hi;
}

/* Makes a bound durable up to which at least this stamp may be given, or refuses with T0903. */
void ttpg_extend_bound(uint64 least) {
    least = Max(least, atomic_load(&ttpg_shared->least_free_ns));
    least += (TTPG_GRID_NS - least % TTPG_GRID_NS) % TTPG_GRID_NS;
    if (least > ttpg_lease_hi) ttpg_refuse(TT_LEASE_OVER);
    LWLockAcquire(ttpg_shared->lock, LW_EXCLUSIVE);
    if (is_half_used(least)) set_bound_above(least);
    LWLockRelease(ttpg_shared->lock);
}

/* One backend does so in time, while the others go on. */
void ttpg_extend_bound_in_time(uint64 stamp) {
    if (!is_half_used(stamp) || !LWLockConditionalAcquire(ttpg_shared->lock, LW_EXCLUSIVE)) return;
    if (is_half_used(stamp)) set_bound_above(stamp);
    LWLockRelease(ttpg_shared->lock);
}

/* Takes the lease as this cluster's own: all its stamps are above this time. */
void ttpg_claim_bound(uint64 least) {
    LWLockAcquire(ttpg_shared->lock, LW_EXCLUSIVE);
    least = Max(least, pg_atomic_read_u64(&ttpg_shared->bound_ns));
    tt_raise(&ttpg_shared->least_free_ns, least + 1);
    set_bound_above(least);
    pg_atomic_write_u32(&ttpg_shared->bound_state, TTPG_OWN);
    LWLockRelease(ttpg_shared->lock);
}

/* Records of a resource manager of its own: after a promotion stamps are above the bound, and a standby knows the watermark. */

XLogRecPtr ttpg_log_watermark(uint64 t) {
    XLogBeginInsert();
    XLogRegisterData((char *)&t, sizeof t);
    return XLogInsert(RM_EXPERIMENTAL_ID, RECORD_WATERMARK);
}

static uint64 time_in(XLogReaderState *record) {
    uint64 t;
    memcpy(&t, XLogRecGetData(record), sizeof t);
    return t;
}

static void redo(XLogReaderState *record) {
    uint64 t = time_in(record);
    if ((XLogRecGetInfo(record) & ~XLR_INFO_MASK) == RECORD_WATERMARK) {
        pg_atomic_write_u64(&ttpg_shared->watermark_ns, t);
        return;
    }
    if (t <= pg_atomic_read_u64(&ttpg_shared->bound_ns)) return;
    if (pg_atomic_read_u32(&ttpg_shared->bound_state) == TTPG_OWN) write_bound(t);
    show_bound(t);
}

static void describe(StringInfo text, XLogReaderState *record) { appendStringInfo(text, UINT64_FORMAT, time_in(record)); }

static const char *identify(uint8 info) { return (info & ~XLR_INFO_MASK) == RECORD_WATERMARK ? "WATERMARK" : "BOUND"; }

static RmgrData manager = {.rm_name = "truetime", .rm_redo = redo, .rm_desc = describe, .rm_identify = identify};

void ttpg_register_records(void) { RegisterCustomRmgr(RM_EXPERIMENTAL_ID, &manager); }
