CREATE TABLE L(K VARCHAR);
CREATE TASK A AS INSERT INTO L VALUES ('A');
CREATE TASK B AFTER A AS INSERT INTO NOWHERE VALUES ('B');
CREATE TASK C AFTER B AS INSERT INTO L VALUES ('C');
CREATE TASK D AFTER C AS INSERT INTO L VALUES ('D');
CREATE TASK E AFTER A AS INSERT INTO L VALUES ('E');
CREATE TASK F AFTER D, E AS INSERT INTO L VALUES ('F');
CREATE TASK G AFTER E, E AS INSERT INTO L VALUES ('G');
ALTER TASK B RESUME;
ALTER TASK C RESUME;
ALTER TASK D RESUME;
ALTER TASK E RESUME;
ALTER TASK F RESUME;
ALTER TASK G RESUME;
EXECUTE TASK A;
!tick
-- all behind a failed task is skipped with it, at any depth, by rising ids
!tick
-- what isn't behind it goes on
!tick
-- a task that has one predecessor twice waits for it once
!tick
ALTER TASK C SUSPEND;
EXECUTE TASK A;
!tick
-- behind a suspended task nothing is reached
!tick
!tick
-- so what is below it through that one alone waits on, and runs behind its other predecessor
!tick
!tick
ALTER TASK C RESUME;
DROP TABLE L;
EXECUTE TASK A;
-- where the root fails all of its run is skipped
!tick
-- and nothing is left to do
!tick
CREATE TABLE L(K VARCHAR);
CREATE STREAM S ON TABLE L;
CREATE TASK W WHEN SYSTEM$STREAM_HAS_DATA('S') AS INSERT INTO L VALUES ('W');
CREATE TASK X AFTER W AS INSERT INTO L VALUES ('X');
CREATE TASK Y AFTER X, W AS INSERT INTO L VALUES ('Y');
ALTER TASK X RESUME;
ALTER TASK Y RESUME;
EXECUTE TASK W;
-- behind a root whose condition doesn't hold all is skipped too, and the run has not failed
!tick
ALTER TASK X SUSPEND;
INSERT INTO L VALUES ('here');
EXECUTE TASK W;
!tick
-- a task whose one predecessor isn't in the run waits for the other alone
!tick
SELECT * FROM L;
