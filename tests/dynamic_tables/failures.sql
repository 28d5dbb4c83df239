CREATE TABLE T(K NUMBER, V NUMBER);
INSERT INTO T VALUES (1, 999999999999999999);
CREATE DYNAMIC TABLE D TARGET_LAG = '60 seconds' AS SELECT K, SUM(V) AS S FROM T GROUP BY K;
INSERT INTO T VALUES (1, 1);
-- a scheduled refresh that is refused is told as failed, and is no refusal of the tick
!tick 48000
-- it is tried once for each grid point
!tick 95999
-- what the table had stays
SELECT * FROM D;
-- a table that can't be refreshed is still no obstacle for one that reads its table alone
CREATE DYNAMIC TABLE E TARGET_LAG = DOWNSTREAM AS SELECT K FROM T;
!tick
-- asked for, the refusal is the answer, and it doesn't count
ALTER DYNAMIC TABLE D REFRESH;
ALTER DYNAMIC TABLE D REFRESH;
ALTER DYNAMIC TABLE D REFRESH;
!tick 144000
!tick 192000
-- the fifth in a row suspends it
!tick 240000
!tick 288000
ALTER DYNAMIC TABLE D REFRESH;
-- RESUME begins to count anew, and the last grid point is tried again
ALTER DYNAMIC TABLE D RESUME;
!tick
!tick
-- RESUME of a table that isn't suspended does so too
ALTER DYNAMIC TABLE D RESUME;
!tick
!tick 336000
!tick 384000
!tick 432000
-- another lag leaves the count and the grid point that was tried
ALTER DYNAMIC TABLE D SET TARGET_LAG = '90 seconds';
!tick
!tick 480000
ALTER DYNAMIC TABLE D RESUME;
!tick
-- what is committed behind the grid point doesn't mend that one, and isn't tried
DELETE FROM T WHERE V = 1;
!tick
-- at the next one it is refreshed, and the count is 0 again
!tick 528000
INSERT INTO T VALUES (1, 1);
!tick 576000
!tick 624000
!tick 672000
!tick 720000
-- an asked refresh that succeeds makes it 0 too
DELETE FROM T WHERE V = 1;
ALTER DYNAMIC TABLE D REFRESH;
INSERT INTO T VALUES (1, 1);
!tick 768000
!tick 816000
!tick 864000
!tick 912000
-- and so does a refresh of a table above it: here of F, which is made
UPDATE T SET V = 0;
CREATE DYNAMIC TABLE F TARGET_LAG = '2 minutes' AS SELECT S * 2 AS S FROM D;
-- where F is undefined D isn't, and F alone counts; 1008000 is no grid point of F
UPDATE T SET V = 600000000000000000 WHERE V = 0 AND K = 1;
DELETE FROM T;
INSERT INTO T VALUES (1, 600000000000000000);
!tick 960000
!tick
!tick 1008000
!tick
!tick 1056000
!tick
-- where D is DOWNSTREAM it isn't refreshed either: a refresh is done whole or not at all
ALTER DYNAMIC TABLE D SET TARGET_LAG = DOWNSTREAM;
INSERT INTO T VALUES (2, 2);
!tick 1152000
SELECT * FROM D;
-- where D is undefined, F fails for it
INSERT INTO T VALUES (1, 600000000000000000);
!tick 1248000
!tick 1344000
-- F is suspended and D isn't; it has counted nothing
ALTER DYNAMIC TABLE D REFRESH;
DELETE FROM T WHERE K = 1;
ALTER DYNAMIC TABLE D REFRESH;
ALTER DYNAMIC TABLE F REFRESH;
ALTER DYNAMIC TABLE F RESUME;
-- the grid point is 1344000, behind which D stands: so does F now
!tick
SELECT * FROM F;
-- a table that was tried for a target behind its grid point isn't due again before a later one
UPDATE T SET V = 700000000000000000;
!tick 1440000
INSERT INTO T VALUES (3, 3);
ALTER DYNAMIC TABLE D REFRESH;
!tick
!tick 1536000
ALTER DYNAMIC TABLE D REFRESH;
ALTER DYNAMIC TABLE F RESUME;
-- the target is D's moment here, and F is tried for that
!tick
!tick
DELETE FROM T WHERE K = 2;
!tick 1632000
-- where the creation of a table is undefined it isn't made, and what it reads stays where it is
INSERT INTO T VALUES (4, 999999999999999999);
CREATE DYNAMIC TABLE G TARGET_LAG = DOWNSTREAM AS SELECT S + 1 AS S FROM D;
SELECT * FROM G;
SELECT K FROM D;
-- with ON_SCHEDULE it is made, and fails at its first grid point
CREATE DYNAMIC TABLE G TARGET_LAG = '60 seconds' INITIALIZE = ON_SCHEDULE AS SELECT S + 1 AS S FROM D;
!tick 1680000
SELECT * FROM G;
-- a part that doesn't matter is looked at too: nothing is skipped
CREATE DYNAMIC TABLE H TARGET_LAG = DOWNSTREAM AS SELECT K FROM T WHERE FALSE AND V + 1 > 0;
-- but a row that doesn't reach a part isn't
CREATE DYNAMIC TABLE H TARGET_LAG = DOWNSTREAM AS SELECT Q.V + 1 AS V FROM (SELECT V FROM T WHERE K = 3) Q;
-- a group that is undefined for a while, and not at the target, does no harm
INSERT INTO T VALUES (4, 1);
DELETE FROM T WHERE K = 4;
!tick 1728000
