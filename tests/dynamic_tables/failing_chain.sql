-- each of four tables multiplies by 1000, so the size of V says which of them is the first beyond 18 digits
CREATE TABLE T(K NUMBER, V NUMBER);
CREATE DYNAMIC TABLE A TARGET_LAG = '1 minute' AS SELECT K, V * 1000 AS V FROM T;
CREATE DYNAMIC TABLE B TARGET_LAG = DOWNSTREAM AS SELECT K, V * 1000 AS V FROM A;
CREATE DYNAMIC TABLE C TARGET_LAG = '2 minutes' AS SELECT K, V * 1000 AS V FROM B;
CREATE DYNAMIC TABLE D TARGET_LAG = '4 minutes' AS SELECT K, V * 1000 AS V FROM C;
-- the last one alone fails: those below it are refreshed for themselves
INSERT INTO T VALUES (1, 1000000);
!tick 192000
!tick
!tick
!tick
-- between its grid points the others go on
!tick 240000
!tick 288000
!tick
!tick
-- the third is undefined: it fails, and the last one fails for it; B is brought by neither
UPDATE T SET V = 1000000000;
!tick 336000
!tick 384000
!tick
!tick
!tick
SELECT V FROM B;
-- the second is undefined: it is DOWNSTREAM, so C and D count the failures
UPDATE T SET V = 1000000000000;
!tick 432000
!tick 480000
!tick
!tick
!tick 576000
!tick
!tick
-- the first is undefined: it counts for itself, from one on
UPDATE T SET V = 1000000000000000;
!tick 624000
!tick 672000
!tick
!tick
!tick 720000
!tick 768000
-- C comes to five and is suspended, so D, which has three, isn't due any more
!tick
!tick
-- then A, and with it nothing is due
!tick 816000
!tick 864000
ALTER DYNAMIC TABLE D REFRESH;
-- what mends it is behind the last grid point, so the next scheduled refresh fails again
DELETE FROM T;
ALTER DYNAMIC TABLE A RESUME;
!tick
-- one that is asked for doesn't
ALTER DYNAMIC TABLE A REFRESH;
-- behind RESUME of C it and D go up to A's moment, each by a refresh of its own
ALTER DYNAMIC TABLE C RESUME;
!tick
!tick
!tick
