/* settings.c: the settings, and what is registered when the library is loaded. */
#include "truetime_pg.h"

#include "fmgr.h"
#include "miscadmin.h"
#include "utils/guc.h"
#include "utils/timeout.h"

#include "storage/proc.h"

PG_MODULE_MAGIC;

void _PG_init(void);

char *ttpg_path = NULL;
uid_t ttpg_owner;
uint64 ttpg_lease_lo = 0, ttpg_lease_hi = TT_MAX_TIME_NS;
bool ttpg_commit_wait = true, ttpg_origins = true, ttpg_log_bound = false;
int ttpg_stamp_which = TTPG_STAMP_ASKED, ttpg_patience_ms = 1000, ttpg_max_wait_ms = 10000;

static char *owner_name = NULL, *lease_text = NULL, *last_commit = NULL;

static const struct config_enum_entry stamp_whiches[] = {
    {"off", TTPG_STAMP_OFF, false}, {"asked", TTPG_STAMP_ASKED, false}, {"all", TTPG_STAMP_ALL, false}, {NULL, 0, false}};

static void define_strings(void) {
    DefineCustomStringVariable("truetime.shared", "The file in which this host's machine of the time service shares the time.", NULL, &ttpg_path,
                               "/run/truetime/time", PGC_POSTMASTER, 0, NULL, NULL, NULL);
    DefineCustomStringVariable("truetime.owner", "The user who owns that file, by name or number.", NULL, &owner_name, "truetime",
                               PGC_POSTMASTER, 0, NULL, NULL, NULL);
    DefineCustomStringVariable("truetime.lease", "The first and the last time that may be a stamp, in nanoseconds.",
                               "Servers whose leases have no time in common give no equal stamps.", &lease_text, "0 4000000000000000000",
                               PGC_POSTMASTER, 0, NULL, NULL, NULL);
    DefineCustomStringVariable("truetime.last_commit", "The stamp of this session's last stamped transaction.", NULL, &last_commit, "",
                               PGC_INTERNAL, GUC_REPORT | GUC_NOT_IN_SAMPLE | GUC_DISALLOW_IN_FILE | GUC_NO_RESET_ALL, NULL, NULL, NULL);
}

static void define_others(void) {
    DefineCustomBoolVariable("truetime.commit_wait", "Whether a transaction waits until its stamp has surely passed.",
                             "Without it the order of stamps promises nothing.", &ttpg_commit_wait, true, PGC_SUSET, 0, NULL, NULL, NULL);
    DefineCustomEnumVariable("truetime.stamp", "Which transactions get a stamp.", NULL, &ttpg_stamp_which, TTPG_STAMP_ASKED, stamp_whiches,
                             PGC_SUSET, 0, NULL, NULL, NULL);
    DefineCustomBoolVariable("truetime.origins", "Whether commit records carry the stamp, by replication origins.", NULL, &ttpg_origins, true,
                             PGC_POSTMASTER, 0, NULL, NULL, NULL);
    DefineCustomBoolVariable("truetime.log_bound", "Whether the bound of stamps and watermarks are in the WAL, for standbys.",
                             "Whatever reads this WAL has to have truetime in shared_preload_libraries.", &ttpg_log_bound, false,
                             PGC_POSTMASTER, 0, NULL, NULL, NULL);
    DefineCustomIntVariable("truetime.patience", "How long a commit tries to get a reading.", NULL, &ttpg_patience_ms, 1000, 0, 3600000,
                            PGC_SUSET, GUC_UNIT_MS, NULL, NULL, NULL);
    DefineCustomIntVariable("truetime.max_wait", "The longest commit wait.",
                            "Also how long a snapshot waits for a pending transaction, and how long one that was told its stamp may be idle.",
                            &ttpg_max_wait_ms, 10000, 1, 3600000, PGC_SUSET, GUC_UNIT_MS, NULL, NULL, NULL);
}

static void check_settings(void) {
    int length = 0;
    if (tt_uid(owner_name, &ttpg_owner) != 0)
        ereport(FATAL, (errcode(ERRCODE_INVALID_PARAMETER_VALUE), errmsg("truetime.owner: there is no user \"%s\"", owner_name)));
    if (sscanf(lease_text, UINT64_FORMAT " " UINT64_FORMAT "%n", &ttpg_lease_lo, &ttpg_lease_hi, &length) != 2 || lease_text[length] != 0 ||
        ttpg_lease_lo > ttpg_lease_hi || ttpg_lease_hi > TT_MAX_TIME_NS)
        ereport(FATAL, (errcode(ERRCODE_INVALID_PARAMETER_VALUE), errmsg("truetime.lease: not two times in order: \"%s\"", lease_text)));
}

void _PG_init(void) {
    if (!process_shared_preload_libraries_in_progress)
        ereport(ERROR, (errcode(ERRCODE_OBJECT_NOT_IN_PREREQUISITE_STATE), errmsg("truetime has to be in shared_preload_libraries")));
    define_strings();
    define_others();
    MarkGUCPrefixReserved("truetime");
    check_settings();
    ttpg_register_memory();
    ttpg_register_records();
    ttpg_register_callbacks();
}

/* Tells the client the stamp, by a ParameterStatus in the answer to COMMIT. It is undone if the transaction fails after all. */
void ttpg_tell(uint64 stamp) {
    char text[24];
    snprintf(text, sizeof text, UINT64_FORMAT, stamp);
    (void)set_config_option("truetime.last_commit", text, PGC_INTERNAL, PGC_S_SESSION, GUC_ACTION_SET, true, 0, false);
}

/* Has PostgreSQL end this session if its transaction is idle for longer than truetime.max_wait: it holds snapshots up. */
void ttpg_limit_idle(void) {
    char text[24];
    if (IdleInTransactionSessionTimeout > 0 && IdleInTransactionSessionTimeout <= ttpg_max_wait_ms) return;
    snprintf(text, sizeof text, "%d", ttpg_max_wait_ms);
    (void)set_config_option("idle_in_transaction_session_timeout", text, PGC_USERSET, PGC_S_SESSION, GUC_ACTION_LOCAL, true, 0, false);
}
