CREATE TABLE T(K NUMBER, V NUMBER);
CREATE TABLE C(K NUMBER, V NUMBER);
INSERT INTO T VALUES (1, 10), (2, 20);
CREATE DYNAMIC TABLE D TARGET_LAG = '60 seconds' AS SELECT K, SUM(V) AS S FROM T GROUP BY K;
-- a transaction sees its own changes of a table, and none of them in a dynamic table
BEGIN;
INSERT INTO T VALUES (3, 30);
SELECT COUNT(*) AS N FROM T;
SELECT * FROM D;
-- both in one query
SELECT T.K, T.V, D.S FROM T JOIN D ON T.K = D.K OR T.K = D.K + 1;
-- a refresh in another session doesn't have them either
!session 2
ALTER DYNAMIC TABLE D REFRESH;
-- one that has other changes is seen at once by the open transaction
!session 3
INSERT INTO C VALUES (9, 90);
CREATE DYNAMIC TABLE E TARGET_LAG = DOWNSTREAM AS SELECT K FROM C;
INSERT INTO C VALUES (8, 80);
!session 1
SELECT * FROM E;
!session 2
ALTER DYNAMIC TABLE E REFRESH;
!session 1
SELECT * FROM E;
-- a changing statement that reads a dynamic table holds its target alone
INSERT INTO C SELECT K, S FROM D;
!session 2
ALTER DYNAMIC TABLE D REFRESH;
INSERT INTO C VALUES (7, 70);
-- a held table may be read by a new dynamic table
CREATE DYNAMIC TABLE F TARGET_LAG = DOWNSTREAM AS SELECT K FROM C;
-- a dynamic table is dropped while a transaction has read it
DROP DYNAMIC TABLE E;
!session 1
SELECT * FROM E;
-- what it reads is not dropped while a transaction holds it
!session 2
DROP TABLE C;
!session 1
COMMIT;
-- the commit is data for the next refresh, of each dynamic table that reads what was touched
!session 2
ALTER DYNAMIC TABLE D REFRESH;
ALTER DYNAMIC TABLE F REFRESH;
-- what is rolled back is never any
BEGIN;
DELETE FROM T;
ROLLBACK;
ALTER DYNAMIC TABLE D REFRESH;
-- a dynamic table without rows is refused in a transaction, which stays open
CREATE DYNAMIC TABLE E TARGET_LAG = '60 seconds' INITIALIZE = ON_SCHEDULE AS SELECT K, V FROM T;
BEGIN;
INSERT INTO T VALUES (4, 40);
INSERT INTO C SELECT K, V FROM E;
-- of several the first in the text, also in a query below
SELECT Q.K FROM (SELECT K FROM D UNION ALL SELECT K FROM E) Q;
-- a column comes before it
SELECT Z FROM E;
-- and a type
SELECT K FROM E WHERE K;
-- it comes before a stream that is gone, and before a hold
CREATE STREAM X ON TABLE T;
COMMIT;
CREATE TABLE W(K NUMBER);
CREATE STREAM X ON TABLE W;
DROP TABLE W;
SELECT X.K FROM X JOIN E ON TRUE;
SELECT X.K FROM X JOIN D ON TRUE;
!session 3
BEGIN;
DELETE FROM C;
!session 2
INSERT INTO C SELECT K, V FROM E;
INSERT INTO C SELECT K, S FROM D;
MERGE INTO C USING E ON C.K = E.K WHEN MATCHED THEN DELETE;
!session 3
ROLLBACK;
-- a task may read a dynamic table, and fails where that has no rows
!session 1
CREATE TASK R SCHEDULE = '1 MINUTE' AS INSERT INTO C SELECT K, V FROM E;
EXECUTE TASK R;
!tick
ALTER TASK R RESUME;
EXECUTE TASK R;
-- a task that is ready comes before a dynamic table that is due
!tick 96000
-- so does a root that is due, here since 60054
!tick
!tick
-- then the tables come, by their ids
!tick
!tick
!tick
-- what a task changes is data for a dynamic table that reads its target
CREATE DYNAMIC TABLE G TARGET_LAG = '60 seconds' AS SELECT COUNT(*) AS N FROM C;
!tick 120054
!tick
!tick 144000
!tick
!tick
SELECT * FROM G;
-- a table that is held delays no refresh
!session 2
BEGIN;
DELETE FROM C;
UPDATE T SET V = 0;
!tick 192000
-- the task waits for its table, and the dynamic tables don't
!tick
!tick
!tick
!tick
COMMIT;
!tick
!tick 240000
!tick
-- what was committed behind 192000 comes in one refresh: eight rows less, and four more
!tick
SELECT * FROM G;
