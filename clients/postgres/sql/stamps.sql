\set VERBOSITY terse
CREATE TABLE plain(id int PRIMARY KEY);
CREATE VIEW stamped AS SELECT id, truetime.stamp_of(xmin) AS stamp FROM plain;
-- no stamp unless asked for
INSERT INTO plain VALUES (1);
SELECT stamp FROM stamped;
-- asked for: told with the answer to COMMIT, on the grid, in the commit record, and past
BEGIN; INSERT INTO plain VALUES (2); SELECT truetime.request(); COMMIT;
SELECT stamp = truetime.last_commit() AS told, stamp % 1000 AS off_grid, NOT truetime.before(stamp) AS passed FROM stamped WHERE id = 2;
SELECT truetime.last_commit() AS before \gset
BEGIN; INSERT INTO plain VALUES (3); SELECT truetime.request(); ROLLBACK;
SELECT truetime.last_commit() = :before AS none;
-- a floor
SELECT latest + 300000000 AS floor FROM truetime.now() \gset
BEGIN; SELECT truetime.request(:floor); COMMIT;
SELECT truetime.last_commit() BETWEEN :floor AND :floor + 2000000 AS above, NOT truetime.before(:floor) AS passed;
SELECT latest + 60000000000 AS far FROM truetime.now() \gset
BEGIN; INSERT INTO plain VALUES (4); SELECT truetime.request(:far); COMMIT;
SELECT truetime.commit_timestamp(:far);
-- savepoints
BEGIN; INSERT INTO plain VALUES (5); SAVEPOINT s; INSERT INTO plain VALUES (6); SELECT truetime.request(); ROLLBACK TO s; INSERT INTO plain VALUES (7); COMMIT;
SELECT id, stamp = truetime.last_commit() AS stamped FROM stamped WHERE id >= 5 ORDER BY id;
-- a deferred trigger writes, and fails
CREATE TABLE log(id int REFERENCES plain(id) DEFERRABLE INITIALLY DEFERRED);
CREATE FUNCTION logs() RETURNS trigger LANGUAGE plpgsql AS $$ BEGIN INSERT INTO log VALUES (NEW.id); RETURN NULL; END $$;
CREATE CONSTRAINT TRIGGER logs AFTER INSERT ON plain DEFERRABLE INITIALLY DEFERRED FOR EACH ROW EXECUTE FUNCTION logs();
BEGIN; INSERT INTO plain VALUES (20); SELECT truetime.request(); COMMIT;
SELECT truetime.stamp_of(log.xmin) = stamp AS same FROM log JOIN stamped USING (id);
BEGIN; INSERT INTO log VALUES (999); SELECT truetime.request(); COMMIT;
SELECT count(*) FROM log;
-- all that write
SET truetime.stamp = 'all';
INSERT INTO plain VALUES (30);
SELECT stamp = truetime.last_commit() AS stamped FROM stamped WHERE id = 30;
SELECT truetime.last_commit() AS before \gset
SELECT count(*) > 0 FROM plain;
SELECT truetime.last_commit() = :before AS read_only_is_not;
TRUNCATE plain CASCADE;
SELECT truetime.last_commit() > :before AS truncate_is;
SELECT truetime.last_commit() AS before \gset
NOTIFY changes;
SELECT truetime.last_commit() > :before AS notify_is;
SELECT truetime.last_commit() AS before \gset
SELECT pg_notify('changes', 'x');
SELECT truetime.last_commit() > :before AS pg_notify_is;
CREATE PROCEDURE twice() LANGUAGE plpgsql AS $$ BEGIN INSERT INTO plain VALUES (40); COMMIT; INSERT INTO plain VALUES (41); COMMIT; END $$;
CALL twice();
SELECT count(DISTINCT stamp) FROM stamped;
COPY plain FROM stdin;
50
51
\.
SELECT count(DISTINCT stamp), bool_and(stamp = truetime.last_commit()) FROM stamped WHERE id >= 50;
-- none at all
SET truetime.stamp = off;
SELECT truetime.request();
SELECT truetime.commit_timestamp();
SELECT truetime.last_commit() AS before \gset
INSERT INTO plain VALUES (60);
SELECT truetime.last_commit() = :before AS none;
RESET truetime.stamp;
-- a session that replays an origin
SELECT pg_replication_origin_create('mine') > 0 AS made;
SELECT pg_replication_origin_session_setup('mine');
BEGIN; INSERT INTO plain VALUES (70); SELECT truetime.request(); COMMIT;
SELECT pg_replication_origin_session_reset();
BEGIN; INSERT INTO plain VALUES (71); SELECT truetime.request(); COMMIT;
SELECT pg_replication_origin_session_reset();
SELECT pg_replication_origin_drop('mine');
-- the stamp would not pass in time: none is used up
SET truetime.max_wait = '1ms';
SELECT latest + 100000000 AS floor FROM truetime.now() \gset
BEGIN; INSERT INTO plain VALUES (80); SELECT truetime.request(:floor); COMMIT;
RESET truetime.max_wait;
SELECT id FROM plain WHERE id >= 70;
SELECT pid, gid FROM truetime.pending;
DROP VIEW stamped;
DROP TABLE plain, log;
DROP PROCEDURE twice;
DROP FUNCTION logs;
