CREATE TASK A SCHEDULE = '1 MINUTE' AS DELETE FROM L;
CREATE TASK B AFTER A AS DELETE FROM M;
ALTER TASK B RESUME;
ALTER TASK A RESUME;
-- each run in which a task fails is counted once, whatever is skipped with it
EXECUTE TASK A;
!tick
EXECUTE TASK A;
!tick
EXECUTE TASK A;
!tick
EXECUTE TASK A;
!tick
EXECUTE TASK A;
!tick
EXECUTE TASK A;
!tick
EXECUTE TASK A;
!tick
EXECUTE TASK A;
!tick
-- nine of them leave the root as it is
EXECUTE TASK A;
!tick
CREATE TABLE L(K NUMBER);
CREATE TABLE M(K NUMBER);
-- one that doesn't fail begins the count anew
EXECUTE TASK A;
!tick
!tick
DROP TABLE L;
-- so this is the first again
EXECUTE TASK A;
!tick
EXECUTE TASK A;
!tick
EXECUTE TASK A;
!tick
EXECUTE TASK A;
!tick
EXECUTE TASK A;
!tick
EXECUTE TASK A;
!tick
EXECUTE TASK A;
!tick
EXECUTE TASK A;
!tick
EXECUTE TASK A;
!tick
-- the schedule counts them too
!tick 60004
-- the tenth in a row suspends the root
!tick
-- so it is due no more
!tick 600000
-- the count goes no further, and the root isn't suspended a second time
EXECUTE TASK A;
!tick
CREATE TABLE L(K NUMBER);
DROP TABLE M;
-- a task behind the root counts on the root, and once more makes no difference
EXECUTE TASK A;
!tick
!tick
CREATE TABLE M(K NUMBER);
-- a run that succeeds sets the count to 0 and leaves the root suspended
EXECUTE TASK A;
!tick
!tick
!tick 1200000
DROP TABLE L;
-- ten more in a row, of a root that is suspended already
EXECUTE TASK A;
!tick
EXECUTE TASK A;
!tick
EXECUTE TASK A;
!tick
EXECUTE TASK A;
!tick
EXECUTE TASK A;
!tick
EXECUTE TASK A;
!tick
EXECUTE TASK A;
!tick
EXECUTE TASK A;
!tick
EXECUTE TASK A;
!tick
-- are told alike at the tenth
EXECUTE TASK A;
!tick
-- RESUME sets the count to 0, and the schedule counts from it
ALTER TASK A RESUME;
EXECUTE TASK A;
!tick
EXECUTE TASK A;
-- in mid-run too: that run is then the first
ALTER TASK A RESUME;
!tick
-- and another one the second
EXECUTE TASK A;
!tick
-- a RESUME of the task behind it leaves the root's count
ALTER TASK A SUSPEND;
ALTER TASK B RESUME;
EXECUTE TASK A;
!tick
EXECUTE TASK A;
!tick
EXECUTE TASK A;
!tick
EXECUTE TASK A;
!tick
EXECUTE TASK A;
!tick
EXECUTE TASK A;
!tick
EXECUTE TASK A;
!tick
-- so the tenth comes as it would
EXECUTE TASK A;
!tick
