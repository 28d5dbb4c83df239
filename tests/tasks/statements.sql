CREATE TABLE T(K NUMBER);
-- a task is made suspended, and what it names needn't be there
CREATE TASK A AS INSERT INTO NOWHERE VALUES (1);
-- a task behind it belongs to its graph
CREATE TASK B AFTER A AS INSERT INTO T VALUES (2);
-- its name is taken for tables too
CREATE TABLE A(K NUMBER);
-- it has no rows
SELECT * FROM A;
-- no task goes by a table's name
ALTER TASK T RESUME;
-- nor by none
ALTER TASK C RESUME;
-- a task that others follow isn't dropped
DROP TASK A;
-- a root alone is executed
EXECUTE TASK B;
-- a task is resumed while its root is suspended
ALTER TASK B RESUME;
ALTER TASK A RESUME;
-- and not once it is resumed
ALTER TASK B RESUME;
-- it is suspended at any time
ALTER TASK B SUSPEND;
-- nothing is made behind a resumed root
CREATE TASK C AFTER A AS INSERT INTO T VALUES (3);
-- nor dropped
DROP TASK B;
-- a resumed root is executed too
EXECUTE TASK A;
-- but not while its run is under way
EXECUTE TASK A;
ALTER TASK A SUSPEND;
-- then nothing is dropped either
DROP TASK B;
-- its one task fails, since its table isn't there
!tick
-- now they may go
DROP TASK B;
DROP TASK A;
-- and their names are free
CREATE TABLE A(K NUMBER);
-- no task is made in a transaction
BEGIN;
CREATE TASK D AS DELETE FROM T;
ALTER TASK D RESUME;
EXECUTE TASK D;
DROP TASK D;
ROLLBACK;
-- a schedule has 1 to 11,520 minutes
CREATE TASK D SCHEDULE = '0 MINUTE' AS DELETE FROM T;
CREATE TASK D SCHEDULE = '11521 MINUTE' AS DELETE FROM T;
CREATE TASK D SCHEDULE = '11520 MINUTE' AS DELETE FROM T;
-- and stands beside no predecessors
CREATE TASK E SCHEDULE = '5 MINUTE' AFTER D AS DELETE FROM T;
-- predecessors are tasks of one root
CREATE TASK F AS DELETE FROM T;
CREATE TASK G AFTER D, F AS DELETE FROM T;
-- tables aren't
CREATE TASK G AFTER T AS DELETE FROM T;
