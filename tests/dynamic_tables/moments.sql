CREATE TABLE T(K NUMBER, V NUMBER);
INSERT INTO T VALUES (1, 10);
CREATE DYNAMIC TABLE D TARGET_LAG = '60 seconds' AS SELECT K FROM T;
!tick 47998
-- a commit before the grid point is in the refresh
INSERT INTO T VALUES (2, 20);
-- so is one at it
INSERT INTO T VALUES (3, 30);
-- one behind it isn't
INSERT INTO T VALUES (4, 40);
!tick
SELECT K FROM D;
-- it comes with the next one
!tick 96000
-- a tick that is late goes by the grid point, and what was committed meanwhile comes later
INSERT INTO T VALUES (5, 50);
!tick 150000
DELETE FROM T;
!tick 191999
!tick 192000
-- an asked refresh takes what was committed up to its own stamp
INSERT INTO T VALUES (6, 60);
ALTER DYNAMIC TABLE D REFRESH;
-- at one stamp a table stands for everything before it, so a second one has no data
ALTER DYNAMIC TABLE D REFRESH;
-- a transaction's changes come with its COMMIT
BEGIN;
INSERT INTO T VALUES (7, 70);
!tick 240000
COMMIT;
!tick 288000
-- a table that is suspended stands for an older moment; at RESUME the last grid point counts
ALTER DYNAMIC TABLE D SUSPEND;
INSERT INTO T VALUES (8, 80);
!tick 340000
INSERT INTO T VALUES (9, 90);
ALTER DYNAMIC TABLE D RESUME;
!tick
SELECT K FROM D;
-- where a table was asked for a later moment, one that reads it goes up to that
CREATE DYNAMIC TABLE E TARGET_LAG = '60 seconds' AS SELECT K FROM D;
INSERT INTO T VALUES (10, 100);
!tick 384100
INSERT INTO T VALUES (11, 110);
ALTER DYNAMIC TABLE D REFRESH;
-- its grid point is 384000, its target 384102, and D stays as it is
!tick
!tick
-- the next grid point is 432000 for both
!tick 432000
!tick
-- the stamp of a refresh may be far behind its target, and versions of its sources go by their stamps alone
INSERT INTO T VALUES (12, 120);
!tick 479999
INSERT INTO T VALUES (13, 130);
UPDATE T SET V = 0;
DELETE FROM T WHERE K < 13;
!tick 500000
!tick
SELECT COUNT(*) AS N, SUM(K) AS S FROM E;
SELECT COUNT(*) AS N, SUM(K) AS S FROM T;
-- an asked refresh brings both up to now
ALTER DYNAMIC TABLE E REFRESH;
SELECT * FROM E;
