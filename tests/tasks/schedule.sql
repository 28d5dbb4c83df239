CREATE TABLE T(K NUMBER);
CREATE TASK A SCHEDULE = '1 MINUTE' AS INSERT INTO T VALUES (1);
-- a suspended task is never due
!tick 60000
-- the schedule counts from the RESUME, at 60001
ALTER TASK A RESUME;
!tick 120000
-- one minute behind it a run begins
!tick 120001
-- and its task is ready
!tick
-- the next time is one minute later
!tick 180000
!tick 180001
!tick
-- times that were missed count as one
!tick 890000
!tick
!tick
-- a run that goes on isn't begun again
!tick 960001
!tick 1020001
-- and the time that came meanwhile counts behind it
!tick
!tick
-- EXECUTE TASK leaves the schedule as it is
EXECUTE TASK A;
!tick
!tick 1080001
!tick
SELECT COUNT(*) AS N FROM T;
