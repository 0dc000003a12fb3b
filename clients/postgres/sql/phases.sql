\set VERBOSITY terse
CREATE TABLE plain(id int PRIMARY KEY);
CREATE VIEW stamped AS SELECT id, truetime.stamp_of(xmin) AS stamp FROM plain;
-- the stamp is taken, and has passed, when PREPARE returns; COMMIT PREPARED writes it
BEGIN; INSERT INTO plain VALUES (1); SELECT truetime.request(); PREPARE TRANSACTION 'one';
SELECT truetime.last_commit() AS s \gset
SELECT NOT truetime.before(:s) AS passed, stamp = :s AS pending, gid, pid FROM truetime.pending;
SELECT truetime.emit_watermark() = :s - 1 AS held_up;
SELECT truetime.make_readable(:s - 1);
SET truetime.max_wait = '50ms';
SELECT truetime.make_readable(:s);
RESET truetime.max_wait;
COMMIT PREPARED 'one';
SELECT stamp = :s AS stamped FROM stamped WHERE id = 1;
SELECT truetime.make_readable(:s);
SELECT count(*) FROM truetime.pending;
-- one that is rolled back
BEGIN; INSERT INTO plain VALUES (2); SELECT truetime.request(); PREPARE TRANSACTION 'two';
ROLLBACK PREPARED 'two';
SELECT count(*) FROM truetime.pending;
-- one without a stamp holds nothing up, and gets none
BEGIN; INSERT INTO plain VALUES (3); PREPARE TRANSACTION 'three';
SELECT truetime.last_commit() AS s \gset
SELECT truetime.make_readable(:s);
COMMIT PREPARED 'three';
SELECT stamp FROM stamped WHERE id = 3;
-- a stamp of another server
SELECT (latest + 50000000) / 1000 * 1000 AS s FROM truetime.now() \gset
BEGIN; INSERT INTO plain VALUES (4); SELECT truetime.adopt(:s) = :s AS adopted; PREPARE TRANSACTION 'four';
SELECT NOT truetime.before(:s) AS passed;
COMMIT PREPARED 'four';
SELECT stamp = :s AS stamped FROM stamped WHERE id = 4;
-- that comes too late, is off the grid, too far ahead, or one too many
SELECT truetime.make_readable(:s);
SELECT truetime.adopt(:s);
SELECT truetime.adopt(:s + 1);
SELECT truetime.adopt(:s + 60000000000);
BEGIN; SELECT truetime.commit_timestamp() > 0; SELECT truetime.adopt(:s); ROLLBACK;
COMMIT PREPARED 'none';
-- with all
SET truetime.stamp = 'all';
BEGIN; INSERT INTO plain VALUES (5); PREPARE TRANSACTION 'five';
SELECT truetime.last_commit() AS s \gset
COMMIT PREPARED 'five';
SELECT stamp = :s AS stamped FROM stamped WHERE id = 5;
RESET truetime.stamp;
DROP VIEW stamped;
DROP TABLE plain;
