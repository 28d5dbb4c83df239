CREATE TABLE T(K NUMBER);
INSERT INTO T VALUES (1);
-- 60 seconds have a period of 48: the next grid point is 48000
CREATE DYNAMIC TABLE A TARGET_LAG = '60 seconds' AS SELECT K FROM T;
-- and so have 95
CREATE DYNAMIC TABLE B TARGET_LAG = '95 seconds' AS SELECT K FROM T;
-- 96 have one of 96
CREATE DYNAMIC TABLE C TARGET_LAG = '96 seconds' AS SELECT K FROM T;
-- and so have 191
CREATE DYNAMIC TABLE D TARGET_LAG = '191 seconds' AS SELECT K FROM T;
-- 192 have one of 192
CREATE DYNAMIC TABLE E TARGET_LAG = '192 seconds' AS SELECT K FROM T;
-- a millisecond before a grid point nothing is due
!tick 47999
-- at it the tables of one period are, one at each tick, the least id first
!tick 48000
!tick
!tick
-- where several are due the least target comes first
!tick 192000
-- and of equal ones the least id: 192000 is a grid point of all
!tick
!tick
!tick
!tick
-- grid points that were missed are passed over
!tick
-- at 336000 the last points are 336000 for A and B, and 288000 for C and D, which come first
!tick 336000
!tick
!tick
!tick
!tick
-- a table that is refreshed for its own stamp is due again at the next grid point
ALTER DYNAMIC TABLE A REFRESH;
!tick 383999
!tick 384000
!tick
!tick
!tick
!tick
DROP DYNAMIC TABLE B;
DROP DYNAMIC TABLE C;
DROP DYNAMIC TABLE D;
DROP DYNAMIC TABLE E;
-- dropped tables are never due
!tick 768000
!tick
-- a table without a moment counts from its creation, here behind the grid point 768000
CREATE DYNAMIC TABLE F TARGET_LAG = '60 seconds' INITIALIZE = ON_SCHEDULE AS SELECT K FROM T;
!tick
!tick 815999
!tick 816000
-- its first refresh stands for the grid point, which is behind its creation
!tick
-- a table that is made at a grid point isn't due there
!tick 863999
CREATE DYNAMIC TABLE G TARGET_LAG = '60 seconds' INITIALIZE = ON_SCHEDULE AS SELECT K FROM T;
!tick
!tick
!tick
-- nor is one that is initialized there
!tick 911999
CREATE DYNAMIC TABLE H TARGET_LAG = '60 seconds' AS SELECT K FROM T;
!tick
!tick
!tick
!tick
-- a DOWNSTREAM table is never due
CREATE DYNAMIC TABLE I TARGET_LAG = DOWNSTREAM INITIALIZE = ON_SCHEDULE AS SELECT K FROM T;
DROP DYNAMIC TABLE A;
DROP DYNAMIC TABLE F;
DROP DYNAMIC TABLE G;
DROP DYNAMIC TABLE H;
!tick 5000000
-- with a lag of its own it is: the last grid point of 48 seconds is 4992000
ALTER DYNAMIC TABLE I SET TARGET_LAG = '1 minute';
!tick
-- a longer lag has other grid points: an hour has a period of 3072 seconds
ALTER DYNAMIC TABLE I SET TARGET_LAG = '1 hour';
!tick 6143999
!tick 6144000
-- a shorter one has nearer ones: ten minutes have 384 seconds, so 6144000 is one, and then 6528000
ALTER DYNAMIC TABLE I SET TARGET_LAG = '10 minutes';
!tick 6527999
!tick 6528000
-- seven days are the longest lag: the period has 393216 seconds
ALTER DYNAMIC TABLE I SET TARGET_LAG = '7 days';
!tick 393215999
!tick 393216000
-- a day has one of 49152 seconds
ALTER DYNAMIC TABLE I SET TARGET_LAG = '1 day';
!tick 442367999
!tick 442368000
-- a DOWNSTREAM table again
ALTER DYNAMIC TABLE I SET TARGET_LAG = DOWNSTREAM;
!tick 900000000
