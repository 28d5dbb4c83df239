-- four tables, the second and the third DOWNSTREAM: A has a lag, D a longer one
CREATE TABLE T(K NUMBER, V NUMBER);
CREATE DYNAMIC TABLE A TARGET_LAG = '1 minute' AS SELECT K, V FROM T WHERE V > 0;
CREATE DYNAMIC TABLE B TARGET_LAG = DOWNSTREAM AS SELECT K, SUM(V) AS S FROM A GROUP BY K;
CREATE DYNAMIC TABLE C TARGET_LAG = DOWNSTREAM AS SELECT S, COUNT(*) AS N FROM B GROUP BY S;
CREATE DYNAMIC TABLE D TARGET_LAG = '2 minutes' AS SELECT S FROM C WHERE N > 1;
INSERT INTO T VALUES (1, 10), (2, 10), (3, 7), (4, 0);
-- A alone is due at 48000
!tick 48000
!tick
-- D is due at 96000: A comes first, by its id, and then D takes what is below it along
!tick 96000
!tick
-- a change that ends in the middle is data for what reads it, up to the end
UPDATE T SET V = V + 1 WHERE K = 4;
UPDATE T SET V = 0 WHERE K = 4;
!tick 192000
!tick
-- without a change each has no data
!tick 288000
!tick
-- where C is suspended D isn't due, and A goes on
INSERT INTO T VALUES (5, 7);
ALTER DYNAMIC TABLE C SUSPEND;
!tick 384000
!tick
-- nor are C and D refreshed when they are asked
ALTER DYNAMIC TABLE D REFRESH;
ALTER DYNAMIC TABLE C REFRESH;
-- B, which stands below, is
ALTER DYNAMIC TABLE B REFRESH;
-- of several suspended ones the least id is told
ALTER DYNAMIC TABLE A SUSPEND;
ALTER DYNAMIC TABLE D REFRESH;
-- where the first is suspended nothing is due
ALTER DYNAMIC TABLE C RESUME;
!tick 480000
-- resumed, A and D are due for the last grid point; D reads B, which stands for 384004, and goes to its own
ALTER DYNAMIC TABLE A RESUME;
!tick
!tick
SELECT * FROM D;
-- where D itself is suspended, C isn't refreshed, since nothing asks for it
ALTER DYNAMIC TABLE D SUSPEND;
INSERT INTO T VALUES (6, 7);
!tick 576000
!tick
SELECT * FROM C;
ALTER DYNAMIC TABLE D RESUME;
!tick
-- a table in the middle that was asked for a later moment draws those above it up to that
ALTER DYNAMIC TABLE B REFRESH;
INSERT INTO T VALUES (7, 10);
!tick 672000
ALTER DYNAMIC TABLE B REFRESH;
!tick
-- where C is dropped its rows are gone for readers, D isn't suspended, and its refreshes fail
DROP DYNAMIC TABLE C;
SELECT * FROM C;
SELECT * FROM D;
!tick 768000
!tick
!tick
ALTER DYNAMIC TABLE D REFRESH;
-- one that is made under its name is another table
CREATE DYNAMIC TABLE C TARGET_LAG = DOWNSTREAM AS SELECT S, COUNT(*) AS N FROM B GROUP BY S;
ALTER DYNAMIC TABLE D REFRESH;
-- a new D reads the new C
DROP DYNAMIC TABLE D;
CREATE DYNAMIC TABLE D TARGET_LAG = '2 minutes' AS SELECT S FROM C WHERE N > 2;
-- where the table below is replaced the first dynamic table has lost its source, and so have all above it
CREATE OR REPLACE TABLE T(K NUMBER, V NUMBER);
INSERT INTO T VALUES (1, 1);
!tick 864000
!tick
!tick
ALTER DYNAMIC TABLE C REFRESH;
-- a missing source comes before a suspended table
ALTER DYNAMIC TABLE B SUSPEND;
ALTER DYNAMIC TABLE C REFRESH;
-- B, whose own source is there, tells of A too; with A dropped both have lost one, and the least id is told
DROP DYNAMIC TABLE A;
ALTER DYNAMIC TABLE B RESUME;
ALTER DYNAMIC TABLE D REFRESH;
-- a dropped table under another name's table is told by the name that it had
CREATE TABLE A(K NUMBER);
ALTER DYNAMIC TABLE B REFRESH;
SELECT * FROM B;
-- a dropped table that was suspended keeps those above it from being due
CREATE DYNAMIC TABLE E TARGET_LAG = DOWNSTREAM AS SELECT K FROM A;
CREATE DYNAMIC TABLE F TARGET_LAG = '1 minute' AS SELECT K FROM E;
DROP DYNAMIC TABLE D;
ALTER DYNAMIC TABLE E SUSPEND;
DROP DYNAMIC TABLE E;
!tick 960000
-- asked for, F is refused for its source
ALTER DYNAMIC TABLE F REFRESH;
-- a dropped table's moment counts in the target
CREATE DYNAMIC TABLE G TARGET_LAG = DOWNSTREAM AS SELECT K FROM A;
CREATE DYNAMIC TABLE H TARGET_LAG = '1 minute' INITIALIZE = ON_SCHEDULE AS SELECT K FROM G;
!tick 1008000
!tick 1056000
ALTER DYNAMIC TABLE H SUSPEND;
!tick 1104000
ALTER DYNAMIC TABLE G REFRESH;
DROP DYNAMIC TABLE G;
ALTER DYNAMIC TABLE H RESUME;
!tick
!tick
-- a table made with ON_SCHEDULE over one without rows takes it along at its first grid point
DROP DYNAMIC TABLE H;
CREATE DYNAMIC TABLE I TARGET_LAG = DOWNSTREAM INITIALIZE = ON_SCHEDULE AS SELECT K FROM A;
CREATE DYNAMIC TABLE J TARGET_LAG = '1 minute' INITIALIZE = ON_SCHEDULE AS SELECT K FROM I;
INSERT INTO A VALUES (1);
!tick 1152000
-- two tables over one, and one over both: each is brought once
CREATE DYNAMIC TABLE K TARGET_LAG = DOWNSTREAM AS SELECT K FROM I;
CREATE DYNAMIC TABLE L TARGET_LAG = '2 minutes' AS SELECT J.K FROM J JOIN K ON J.K = K.K;
INSERT INTO A VALUES (2), (2);
!tick 1248000
!tick
