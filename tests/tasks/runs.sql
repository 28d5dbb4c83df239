CREATE TABLE T(K NUMBER);
CREATE TABLE S(K NUMBER);
-- a diamond: A, behind it B and C, behind them D
CREATE TASK A AS INSERT INTO T VALUES (1);
CREATE TASK B AFTER A AS INSERT INTO T VALUES (2);
CREATE TASK C AFTER A AS INSERT INTO S VALUES (3);
CREATE TASK D AFTER B, C AS INSERT INTO T VALUES (4);
ALTER TASK B RESUME;
ALTER TASK C RESUME;
ALTER TASK D RESUME;
-- a suspended root is in its run
EXECUTE TASK A;
-- each tick carries out one task
!tick
-- of those that are ready the one with the least id
!tick
!tick
-- the last one ends the run
!tick
-- then nothing is due
!tick
SELECT * FROM T;
-- a task that isn't resumed isn't in a run, and what follows it is where it has another predecessor there
ALTER TASK B SUSPEND;
EXECUTE TASK A;
!tick
!tick
!tick
-- what a failed task is followed by is skipped
DROP TABLE S;
ALTER TASK B RESUME;
EXECUTE TASK A;
!tick
!tick
!tick
-- and the run has failed
SELECT * FROM T;
