-- four tables over one another, the first and the last with a lag of a minute
CREATE TABLE T(K NUMBER);
CREATE DYNAMIC TABLE A TARGET_LAG = '1 minute' INITIALIZE = ON_SCHEDULE AS SELECT K FROM T;
CREATE DYNAMIC TABLE B TARGET_LAG = DOWNSTREAM INITIALIZE = ON_SCHEDULE AS SELECT K FROM A;
CREATE DYNAMIC TABLE C TARGET_LAG = DOWNSTREAM INITIALIZE = ON_SCHEDULE AS SELECT K FROM B;
CREATE DYNAMIC TABLE D TARGET_LAG = '1 minute' INITIALIZE = ON_SCHEDULE AS SELECT K FROM C;
-- the first refreshes of all, in two ticks
!tick 48000
!tick
-- the first is suspended: nothing is due
INSERT INTO T VALUES (1);
ALTER DYNAMIC TABLE A SUSPEND;
!tick 96000
ALTER DYNAMIC TABLE A RESUME;
!tick
!tick
-- the second: the first goes on
INSERT INTO T VALUES (2);
ALTER DYNAMIC TABLE B SUSPEND;
!tick 144000
!tick
ALTER DYNAMIC TABLE B RESUME;
!tick
-- the third: the same, and what is below it can be asked for
INSERT INTO T VALUES (3);
ALTER DYNAMIC TABLE C SUSPEND;
!tick 192000
!tick
ALTER DYNAMIC TABLE B REFRESH;
ALTER DYNAMIC TABLE C RESUME;
-- behind that the last two go up to what the second stands for
!tick
-- the last: nothing asks for the second and the third
INSERT INTO T VALUES (4);
ALTER DYNAMIC TABLE D SUSPEND;
!tick 240000
!tick
ALTER DYNAMIC TABLE D RESUME;
!tick
-- two are suspended, and one of them is resumed: still nothing is due above the other
ALTER DYNAMIC TABLE B SUSPEND;
ALTER DYNAMIC TABLE C SUSPEND;
ALTER DYNAMIC TABLE B RESUME;
!tick 288000
!tick
ALTER DYNAMIC TABLE C RESUME;
!tick
-- the last is dropped: the first alone is refreshed
DROP DYNAMIC TABLE D;
INSERT INTO T VALUES (5);
!tick 336000
!tick
-- one that is made in its place has the rows of now, and brings all of them
CREATE DYNAMIC TABLE D TARGET_LAG = '1 minute' AS SELECT K FROM C;
-- the third is dropped: the last has lost its source
DROP DYNAMIC TABLE C;
!tick 384000
!tick
-- one that is made in its place is no source of it
CREATE DYNAMIC TABLE C TARGET_LAG = DOWNSTREAM AS SELECT K FROM B;
ALTER DYNAMIC TABLE D REFRESH;
DROP DYNAMIC TABLE D;
CREATE DYNAMIC TABLE D TARGET_LAG = '1 minute' INITIALIZE = ON_SCHEDULE AS SELECT K FROM C;
-- the second is dropped: the third has lost its source, and the last fails for that
DROP DYNAMIC TABLE B;
!tick 432000
!tick
SELECT * FROM D;
ALTER DYNAMIC TABLE C REFRESH;
-- the first is dropped: the second, though it is dropped too, is the least that lost a source
DROP DYNAMIC TABLE A;
!tick 480000
ALTER DYNAMIC TABLE C REFRESH;
-- the table below is dropped: the first is told, by the name that it had
DROP TABLE T;
!tick 528000
!tick 576000
!tick 624000
!tick 672000
