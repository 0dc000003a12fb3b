\set VERBOSITY terse
CREATE TABLE plain(id int PRIMARY KEY);
INSERT INTO plain VALUES (1);
-- told at once: the commit has it
BEGIN; INSERT INTO plain VALUES (2); SELECT truetime.commit_timestamp() AS s \gset
SELECT truetime.commit_timestamp() = :s AS same;
COMMIT;
SELECT truetime.stamp_of(xmin) = :s AS stamped, :s = truetime.last_commit() AS told FROM plain WHERE id = 2;
-- a higher floor comes too late
BEGIN; SELECT truetime.commit_timestamp() > 0;
SELECT truetime.request(latest + 500000000) FROM truetime.now();
ROLLBACK;
-- nothing may be written or locked behind it
BEGIN; SELECT truetime.commit_timestamp() > 0; INSERT INTO plain VALUES (3); COMMIT;
INSERT INTO plain SELECT 4 WHERE truetime.commit_timestamp() > 0;
BEGIN; SELECT truetime.commit_timestamp() > 0; SELECT * FROM plain WHERE id = 1 FOR UPDATE; COMMIT;
BEGIN; SELECT truetime.commit_timestamp() > 0; LOCK TABLE plain IN EXCLUSIVE MODE; COMMIT;
BEGIN; SELECT truetime.commit_timestamp() > 0; SELECT pg_advisory_xact_lock(1); COMMIT;
BEGIN; SELECT truetime.commit_timestamp() > 0; CREATE TABLE other(); COMMIT;
-- what was locked before may stay
BEGIN; LOCK TABLE plain IN EXCLUSIVE MODE; SELECT pg_advisory_xact_lock(1); SELECT truetime.commit_timestamp() > 0; SELECT count(*) FROM plain; COMMIT;
-- in a block that fails
DO $$ BEGIN PERFORM truetime.commit_timestamp(latest + 60000000000) FROM truetime.now(); EXCEPTION WHEN OTHERS THEN RAISE WARNING '%: %', SQLSTATE, SQLERRM; END $$;
-- while it is pending: who reads at a time behind it waits, and no session may be idle with it
SHOW idle_in_transaction_session_timeout;
BEGIN; SELECT truetime.commit_timestamp() AS s \gset
SHOW idle_in_transaction_session_timeout;
SELECT stamp = :s AS pending, pid = pg_backend_pid() AS mine, gid FROM truetime.pending;
SELECT truetime.emit_watermark() < :s AS held_up;
COMMIT;
SHOW idle_in_transaction_session_timeout;
SELECT truetime.emit_watermark() >= :s AS whole;
SET idle_in_transaction_session_timeout = '2s';
BEGIN; SELECT truetime.commit_timestamp() > 0; SHOW idle_in_transaction_session_timeout; COMMIT;
DROP TABLE plain;
