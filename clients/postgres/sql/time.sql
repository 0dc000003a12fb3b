-- The server has truetime in shared_preload_libraries, a machine of the time service, track_commit_timestamp, max_prepared_transactions.
\set VERBOSITY terse
SELECT earliest <= latest AS in_order, fresh, abs(extract(epoch FROM truetime.to_timestamptz(earliest) - clock_timestamp())) < 5 AS is_now
FROM truetime.now();
SELECT truetime.after(1) AS passed, truetime.before(4000000000000000000) AS ahead, truetime.after(latest + 60000000000) AS not_yet FROM truetime.now();
-- what has passed; a later reading may be wider, and its earliest lower
SELECT latest AS t FROM truetime.now() \gset
SELECT truetime.wait_past(:t);
SELECT NOT truetime.before(:t) AS passed;
SELECT truetime.after(-1);
SELECT truetime.after(4000000000000000001);
SELECT truetime.to_timestamptz(1000000999) = timestamptz 'epoch' + interval '1.000000 s' AS rounded_down;
-- parallel workers read by files of their own
SET force_parallel_mode = on;
SELECT truetime.after(1), (SELECT fresh FROM truetime.now());
RESET force_parallel_mode;
-- a snapshot is one of a later statement
BEGIN ISOLATION LEVEL REPEATABLE READ;
SELECT truetime.make_readable(1);
ROLLBACK;
SELECT truetime.make_readable(:t);
SELECT truetime.emit_watermark() >= :t AS whole;
SELECT bound_state, next_least - 1 <= bound AS durable FROM truetime.status();
