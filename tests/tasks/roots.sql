CREATE TABLE T(K NUMBER);
CREATE TASK B SCHEDULE = '1 MINUTE' AS INSERT INTO T VALUES (1);
CREATE TASK A SCHEDULE = '2 MINUTES' AS INSERT INTO T VALUES (2);
CREATE TASK C AS INSERT INTO T VALUES (3);
CREATE TASK D AFTER B AS INSERT INTO T VALUES (4);
ALTER TASK D RESUME;
ALTER TASK B RESUME;
ALTER TASK A RESUME;
-- a root without a schedule is resumed as any other
ALTER TASK C RESUME;
-- a millisecond before its first time no root is due
!tick 60006
-- where two roots are due at one tick the older one begins
!tick 120008
-- the tasks of its run come before the start of the other
!tick
!tick
-- then the other one begins
!tick
!tick
-- the root without a schedule is never due
!tick
-- but it is executed
EXECUTE TASK C;
-- beside a run of another root
EXECUTE TASK B;
-- of two runs the tasks of the older root come first
!tick
!tick
!tick
EXECUTE TASK C;
-- a task that is ready comes before a root that is due, though that is older
!tick 180007
!tick
!tick
!tick
-- RESUME of a resumed root begins its schedule anew
ALTER TASK B RESUME;
-- so its old time passes by
!tick 240007
ALTER TASK A SUSPEND;
-- and so does that of a suspended root
!tick 240010
-- the new time counts from the RESUME, at 180011
!tick 240011
!tick
!tick
ALTER TASK A RESUME;
-- a time that came while the root was suspended isn't caught up
!tick
-- a tick behind a hundred times of the schedule begins one run
!tick 6000000
!tick
!tick
-- of each root
!tick
!tick
-- and no second one
!tick
ALTER TASK A SUSPEND;
-- the times stay where they are, however late a run began
!tick 6000010
!tick 6000011
!tick
!tick
EXECUTE TASK B;
-- a run that EXECUTE began is under way when the next time comes
!tick 6060011
!tick
-- and that time still begins its own
!tick
!tick
!tick
CREATE TASK E SCHEDULE = '11520 MINUTE' AS DELETE FROM T;
ALTER TASK B SUSPEND;
ALTER TASK E RESUME;
-- the longest schedule is of eight days
!tick 697260017
!tick 697260018
