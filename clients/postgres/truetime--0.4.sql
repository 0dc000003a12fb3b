\echo Use "CREATE EXTENSION truetime" to load this file. \quit

-- Times are nanoseconds.

-- The true time lies from earliest to latest, both included. fresh: the machine is at work.
CREATE FUNCTION now(OUT earliest bigint, OUT latest bigint, OUT fresh boolean)
AS 'MODULE_PATHNAME', 'ttpg_sql_now' LANGUAGE C VOLATILE STRICT PARALLEL SAFE;
-- Whether t has surely passed, and whether it has surely not arrived.
CREATE FUNCTION after(t bigint) RETURNS boolean
AS 'MODULE_PATHNAME', 'ttpg_sql_after' LANGUAGE C VOLATILE STRICT PARALLEL SAFE;
CREATE FUNCTION before(t bigint) RETURNS boolean
AS 'MODULE_PATHNAME', 'ttpg_sql_before' LANGUAGE C VOLATILE STRICT PARALLEL SAFE;
-- Returns once t has surely passed.
CREATE FUNCTION wait_past(t bigint) RETURNS void
AS 'MODULE_PATHNAME', 'ttpg_sql_wait_past' LANGUAGE C VOLATILE STRICT PARALLEL SAFE;
-- Returns once t has surely passed and each transaction with a stamp up to t is visible to new snapshots: to the next statement.
CREATE FUNCTION make_readable(t bigint) RETURNS void
AS 'MODULE_PATHNAME', 'ttpg_sql_make_readable' LANGUAGE C VOLATILE STRICT PARALLEL RESTRICTED;

-- Asks that this transaction get a stamp when it commits, no lower than the floor.
CREATE FUNCTION request() RETURNS void
AS 'MODULE_PATHNAME', 'ttpg_sql_request' LANGUAGE C VOLATILE STRICT PARALLEL UNSAFE;
CREATE FUNCTION request(floor bigint) RETURNS void
AS 'MODULE_PATHNAME', 'ttpg_sql_request' LANGUAGE C VOLATILE STRICT PARALLEL UNSAFE;
-- Takes the stamp of this transaction now, no lower than the floor. Nothing may be written or locked afterwards.
CREATE FUNCTION commit_timestamp() RETURNS bigint
AS 'MODULE_PATHNAME', 'ttpg_sql_commit_timestamp' LANGUAGE C VOLATILE STRICT PARALLEL UNSAFE;
CREATE FUNCTION commit_timestamp(floor bigint) RETURNS bigint
AS 'MODULE_PATHNAME', 'ttpg_sql_commit_timestamp' LANGUAGE C VOLATILE STRICT PARALLEL UNSAFE;
-- Takes a stamp that another server gave as that of this transaction, once all servers that take part hold all their locks.
CREATE FUNCTION adopt(stamp bigint) RETURNS bigint
AS 'MODULE_PATHNAME', 'ttpg_sql_adopt' LANGUAGE C VOLATILE STRICT PARALLEL UNSAFE;
-- The stamp of this session's last stamped transaction.
CREATE FUNCTION last_commit() RETURNS bigint
AS $$ SELECT nullif(current_setting('truetime.last_commit'), '')::bigint $$ LANGUAGE sql STABLE PARALLEL RESTRICTED;

-- Writes, outside of any transaction, the message truetime.watermark: what it returns, up to which the stream of changes is whole. No
-- commit record behind it has a stamp up to that.
CREATE FUNCTION emit_watermark() RETURNS bigint
AS 'MODULE_PATHNAME', 'ttpg_sql_emit_watermark' LANGUAGE C VOLATILE STRICT PARALLEL UNSAFE;

-- Nanoseconds since 1970 as timestamptz, rounded down to microseconds. Right if the masters' scale is that of Unix.
CREATE FUNCTION to_timestamptz(ns bigint) RETURNS timestamptz
AS $$ SELECT timestamptz 'epoch' + (ns / 1000) * interval '1 microsecond' $$ LANGUAGE sql IMMUTABLE STRICT PARALLEL SAFE;
-- With truetime.origins and track_commit_timestamp: the stamp of a transaction, as of a row's xmin; null if it has none, or is frozen.
CREATE FUNCTION stamp_of(x xid) RETURNS bigint LANGUAGE sql STABLE STRICT PARALLEL SAFE AS $$
  SELECT CASE WHEN o.roname LIKE 'truetime/%' THEN (extract(epoch FROM c.timestamp) * 1000000)::bigint * 1000 END
  FROM pg_catalog.pg_xact_commit_timestamp_origin(x) c JOIN pg_catalog.pg_replication_origin o ON o.roident = c.roident $$;

-- With truetime.origins: makes those that are missing, as many as max_replication_slots, and returns how many it made.
CREATE FUNCTION create_origins() RETURNS bigint LANGUAGE sql AS $$
  SELECT count(pg_catalog.pg_replication_origin_create('truetime/' || n))
  FROM generate_series(1, pg_catalog.current_setting('max_replication_slots')::int) n
  WHERE NOT EXISTS (SELECT FROM pg_catalog.pg_replication_origin WHERE roname = 'truetime/' || n) $$;
-- Says that no other cluster gives stamps of this lease. All stamps are above those given until now.
CREATE FUNCTION claim_lease() RETURNS void
AS 'MODULE_PATHNAME', 'ttpg_sql_claim_lease' LANGUAGE C VOLATILE STRICT PARALLEL UNSAFE;

-- bound_state: own, or missing or copied, and then no stamps are given. No stamp is above the bound, and the next is no lower than next_least.
CREATE FUNCTION status(OUT bound_state text, OUT bound bigint, OUT next_least bigint, OUT stamps bigint, OUT waited_ns bigint,
                       OUT replayed_watermark bigint, OUT sessions_with_origins integer)
AS 'MODULE_PATHNAME', 'ttpg_sql_status' LANGUAGE C VOLATILE STRICT PARALLEL RESTRICTED;
CREATE FUNCTION pending_stamps(OUT pid integer, OUT transaction xid, OUT stamp bigint) RETURNS SETOF record
AS 'MODULE_PATHNAME', 'ttpg_sql_pending' LANGUAGE C VOLATILE STRICT PARALLEL RESTRICTED;
-- The transactions that have taken a stamp and have not ended: of a process, or prepared.
CREATE VIEW pending AS
  SELECT p.stamp, p.pid, x.gid, coalesce(a.xact_start, x.prepared) AS since
  FROM truetime.pending_stamps() p LEFT JOIN pg_catalog.pg_stat_activity a ON a.pid = p.pid
  LEFT JOIN pg_catalog.pg_prepared_xacts x ON x.transaction = p.transaction;

-- All later stamps are above a floor, and wait as long.
REVOKE ALL ON FUNCTION request(bigint), commit_timestamp(bigint), adopt(bigint) FROM PUBLIC;
REVOKE ALL ON FUNCTION emit_watermark(), create_origins(), claim_lease(), pending_stamps() FROM PUBLIC;

DO $$
DECLARE
  why text;
BEGIN
  IF current_setting('truetime.origins')::boolean THEN
    PERFORM truetime.create_origins();
  END IF;
  IF (SELECT bound_state FROM truetime.status()) = 'missing' THEN
    PERFORM truetime.claim_lease();
  END IF;
EXCEPTION WHEN OTHERS THEN
  GET STACKED DIAGNOSTICS why = PG_EXCEPTION_DETAIL;
  RAISE WARNING 'truetime: no stamps are given before truetime.create_origins() and truetime.claim_lease() were called: %. %', SQLERRM, why;
END $$;
