CREATE TABLE T(K NUMBER);
CREATE TABLE U(K NUMBER);
BEGIN;
-- a transaction that read alone makes no commit
SELECT * FROM T;
COMMIT;
BEGIN;
INSERT INTO T VALUES (1);
DELETE FROM T;
-- rows that came and went: the table was touched
COMMIT;
-- and holds nothing
SELECT * FROM T;
BEGIN;
DELETE FROM T;
UPDATE T SET K = 1;
INSERT INTO T SELECT * FROM U;
-- no row counted in any statement
COMMIT;
INSERT INTO T VALUES (1), (2);
BEGIN;
-- an equal row counts
UPDATE T SET K = K WHERE K = 2;
COMMIT;
BEGIN;
INSERT INTO T VALUES (3);
INSERT INTO U VALUES (30);
-- both tables at one stamp
COMMIT;
-- the first
SELECT * FROM T;
-- and the other
SELECT * FROM U;
BEGIN;
INSERT INTO T VALUES (4);
!session 7
BEGIN;
INSERT INTO U VALUES (40);
-- sessions commit apart
COMMIT;
!session 1
-- the other's row is there
SELECT * FROM U;
!session 7
-- and the open transaction's isn't
SELECT * FROM T;
-- a transaction of one session isn't ended by another's command
ROLLBACK;
!session 1
COMMIT;
!session 7
-- now it is there
SELECT * FROM T;
!tick 1000
BEGIN;
INSERT INTO T VALUES (5);
-- a tick leaves transactions open
!tick 2000
-- a commit takes a later stamp than its statements
COMMIT;
BEGIN;
INSERT INTO T VALUES (6);
