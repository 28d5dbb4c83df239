CREATE TABLE T(K NUMBER);
CREATE TASK A SCHEDULE = '1 MINUTE' AS INSERT INTO T VALUES (1);
CREATE TASK B AFTER A AS INSERT INTO T VALUES (2);
CREATE TASK C AFTER B AS INSERT INTO T VALUES (3);
ALTER TASK B RESUME;
ALTER TASK C RESUME;
ALTER TASK A RESUME;
!tick 60007
-- while a run is under way its root isn't due, though its time has come
!tick 120007
-- nor is it executed
EXECUTE TASK A;
-- a task is suspended, and its run goes on with it
ALTER TASK B SUSPEND;
!tick
-- the root too
ALTER TASK A SUSPEND;
-- nothing of the graph is dropped meanwhile
DROP TASK C;
-- but a task is made behind the suspended root
CREATE TASK D AFTER A AS INSERT INTO T VALUES (4);
-- and behind a task that still waits
CREATE TASK E AFTER C AS INSERT INTO T VALUES (5);
-- and resumed
ALTER TASK D RESUME;
ALTER TASK E RESUME;
-- they aren't in the run that began before: it ends without them
!tick
!tick
-- the next run has them, and not the task that was suspended, nor what is behind it alone
EXECUTE TASK A;
!tick
!tick
-- a root whose graph is at rest may lose its last tasks
DROP TASK E;
DROP TASK C;
DROP TASK B;
-- a dropped task is in no run that begins later
EXECUTE TASK A;
!tick
!tick
-- its name is free for another one, which is suspended
CREATE TASK B AFTER A AS INSERT INTO T VALUES (6);
EXECUTE TASK A;
-- RESUME of the root in mid-run, at 120030
ALTER TASK A RESUME;
-- the run goes on
!tick
!tick
-- and its schedule counts from there
!tick 180029
!tick 180030
!tick
!tick
ALTER TASK A SUSPEND;
DROP TASK D;
DROP TASK B;
DROP TASK A;
-- a dropped root is never due
!tick 600000
-- and a new one of its name has no schedule of the old one
CREATE TASK A AS INSERT INTO T VALUES (7);
ALTER TASK A RESUME;
!tick 1200000
SELECT K, COUNT(*) AS N FROM T GROUP BY K;
