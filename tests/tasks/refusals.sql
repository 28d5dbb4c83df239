CREATE TABLE T(K NUMBER);
CREATE TASK A AS DELETE FROM T;
CREATE TASK Z AFTER A AS DELETE FROM T;
CREATE TASK C AFTER A AS DELETE FROM T;
-- of two that follow a task the older one is named
DROP TASK A;
ALTER TASK A RESUME;
-- while it is resumed that comes first
DROP TASK A;
-- for a task behind it too, by the root's name
DROP TASK Z;
EXECUTE TASK A;
-- and while a run is under way that does
DROP TASK A;
-- for a task that isn't in the run too
DROP TASK C;
-- a second run isn't begun
EXECUTE TASK A;
-- the kind comes before the run
EXECUTE TASK C;
-- a task behind the resumed root is refused before its name's length is looked at
CREATE TASK NNNNNNNNNNNNNNNNNNNNNNNNNNNNNNNNNNNNNNNNNNNNNNNNNNNNNNNNNNNNNNNNNNNNNNNNNNNNNNNNNNNNNNNNNNNNNNNNNNNNNNNNNNNNNNNNNNNNNNNNNNNNNNNNNNNNNNNNNNNNNNNNNNNNNNNNNNNNNNNNNNNNNNNNNNNNNNNNNNNNNNNNNNNNNNNNNNNNNNNNNNNNNNNNNNNNNNNNNNNNNNNNNNNNNNNNNNNNNNNNNNNNNNNNNNNNNNNN AFTER A AS DELETE FROM T;
-- but behind its own name
CREATE TASK Z AFTER A AS DELETE FROM T;
-- and behind the kinds of names
CREATE TASK D AFTER A, T AS DELETE FROM T;
-- a task behind it isn't resumed
ALTER TASK Z RESUME;
-- nor resumed again
ALTER TASK C RESUME;
-- it is suspended, though it was
ALTER TASK C SUSPEND;
-- the root is resumed again in mid-run
ALTER TASK A RESUME;
-- and suspended
ALTER TASK A SUSPEND;
-- the run stays under way
DROP TASK C;
-- a task is resumed meanwhile, now that the root is suspended
ALTER TASK C RESUME;
!tick
BEGIN;
-- an open transaction comes before names
DROP TASK NOPE;
-- before kinds
EXECUTE TASK C;
-- before limits
CREATE TASK D SCHEDULE = '0 MINUTE' AS DELETE FROM T;
-- but a text that spells nothing comes before it
ALTER TASK A;
-- and so does a session that there isn't
!session 65
EXECUTE TASK A;
-- another session isn't in that transaction
!session 2
DROP TASK C;
-- with the other one dropped the last is left
DROP TASK Z;
-- and then nothing follows the root
DROP TASK A;
-- it is gone
EXECUTE TASK A;
