CREATE TABLE T(K NUMBER, V NUMBER);
INSERT INTO T VALUES (1, 10), (1, 20), (2, 5);
CREATE DYNAMIC TABLE G TARGET_LAG = '60 seconds' REFRESH_MODE = INCREMENTAL
  AS SELECT K, SUM(V) AS S, COUNT(*) AS N, COUNT(V) AS C FROM T GROUP BY K;
DELETE FROM T WHERE K = 2;
INSERT INTO T VALUES (3, 7);
-- a group whose last row goes is gone, and one whose first row comes is there
!tick 48000
SELECT * FROM G;
-- a group that rows come to and go from is a row that goes and one that comes; the other group stays
INSERT INTO T VALUES (1, 1);
DELETE FROM T WHERE V = 10;
ALTER DYNAMIC TABLE G REFRESH;
-- rows that become others of the same sums leave the row of their group as it is
UPDATE T SET V = 21 WHERE V = 20;
UPDATE T SET V = 0 WHERE V = 1;
ALTER DYNAMIC TABLE G REFRESH;
-- NULL keys are one group
INSERT INTO T VALUES (NULL, 4), (NULL, NULL);
ALTER DYNAMIC TABLE G REFRESH;
-- a SUM over no number is NULL, when the last number of a group goes
DELETE FROM T WHERE V = 4;
ALTER DYNAMIC TABLE G REFRESH;
SELECT * FROM G;
-- a key that becomes NULL takes its row from one group to the other
UPDATE T SET K = NULL WHERE K = 3;
ALTER DYNAMIC TABLE G REFRESH;
-- a group over a join: a row counts with each of its pairs
CREATE TABLE W(K NUMBER, NAME VARCHAR);
INSERT INTO W VALUES (1, 'one'), (1, 'eins'), (3, 'three');
CREATE DYNAMIC TABLE J TARGET_LAG = DOWNSTREAM REFRESH_MODE = INCREMENTAL
  AS SELECT W.NAME, SUM(T.V) AS S FROM T JOIN W ON T.K = W.K GROUP BY W.NAME;
INSERT INTO T VALUES (1, 4), (3, 3);
ALTER DYNAMIC TABLE J REFRESH;
-- and a group whose last pair goes is gone
DELETE FROM W WHERE NAME = 'eins';
ALTER DYNAMIC TABLE J REFRESH;
SELECT * FROM J;
-- groups of groups: one that comes below counts above, and one that gets another sum counts elsewhere
CREATE DYNAMIC TABLE H TARGET_LAG = DOWNSTREAM REFRESH_MODE = INCREMENTAL
  AS SELECT Q.S, COUNT(*) AS N FROM (SELECT K, SUM(V) AS S FROM T GROUP BY K) Q GROUP BY Q.S;
INSERT INTO T VALUES (4, 7), (3, 4);
ALTER DYNAMIC TABLE H REFRESH;
SELECT * FROM H;
-- a condition above a group: it comes when its sum is large enough, and goes when it isn't any more
CREATE DYNAMIC TABLE B TARGET_LAG = DOWNSTREAM REFRESH_MODE = INCREMENTAL
  AS SELECT Q.K, Q.S + 1 AS S FROM (SELECT K, SUM(V) AS S FROM T GROUP BY K) Q WHERE Q.S > 10;
INSERT INTO T VALUES (4, 10);
ALTER DYNAMIC TABLE B REFRESH;
UPDATE T SET V = 0 WHERE V = 21;
ALTER DYNAMIC TABLE B REFRESH;
SELECT * FROM B;
-- a group beside another: their rows are counted together
CREATE DYNAMIC TABLE U TARGET_LAG = DOWNSTREAM REFRESH_MODE = INCREMENTAL
  AS SELECT K, COUNT(*) AS N FROM T GROUP BY K UNION ALL SELECT K, COUNT(*) FROM W GROUP BY K;
SELECT * FROM U;
-- one row of the two becomes another
DELETE FROM W WHERE K = 1;
INSERT INTO W VALUES (3, 'drei');
ALTER DYNAMIC TABLE U REFRESH;
-- a group without keys isn't for INCREMENTAL
CREATE DYNAMIC TABLE Z TARGET_LAG = DOWNSTREAM REFRESH_MODE = INCREMENTAL AS SELECT SUM(V) AS S, COUNT(*) AS N FROM T;
-- where no mode is written it is FULL, and has one row, also over none
CREATE DYNAMIC TABLE Z TARGET_LAG = DOWNSTREAM AS SELECT SUM(V) AS S, COUNT(*) AS N FROM T;
SELECT * FROM Z;
DELETE FROM T;
ALTER DYNAMIC TABLE Z REFRESH;
SELECT * FROM Z;
-- the groups are all gone
ALTER DYNAMIC TABLE G REFRESH;
-- and come anew with the first rows
INSERT INTO T VALUES (NULL, NULL), (1, NULL), (1, 2);
!tick 96000
SELECT * FROM G;
