CREATE TABLE T(K NUMBER, V NUMBER);
CREATE TABLE U(K NUMBER, V NUMBER);
INSERT INTO T VALUES (1, 1);
INSERT INTO U VALUES (1, 5);
BEGIN;
INSERT INTO T VALUES (2, 2);
!session 2
-- a table that another transaction holds isn't changed
UPDATE T SET V = 0;
-- nor are rows added
INSERT INTO T VALUES (3, 3);
-- nor removed, whether or not there are any
DELETE FROM T WHERE K = 99;
-- nor merged into
MERGE INTO T USING U ON T.K = U.K WHEN MATCHED THEN DELETE;
-- it isn't dropped
DROP TABLE T;
-- nor replaced
CREATE OR REPLACE TABLE T(K NUMBER);
-- it is read
SELECT * FROM T;
-- also as a source
INSERT INTO U SELECT * FROM T;
BEGIN;
-- a transaction is refused alike
UPDATE T SET V = 0;
-- and stays open
UPDATE U SET V = V + 1 WHERE K = 1;
!session 1
-- two transactions hold a table each
DELETE FROM U;
-- each sees what is committed of the other's
SELECT * FROM U;
-- the holder changes its own table again
UPDATE T SET V = V + 1;
!session 3
-- of two tables each tells its own holder
DELETE FROM T;
-- and this one another
DELETE FROM U;
!session 1
-- a hold goes with its commit
COMMIT;
!session 3
-- the table is free
UPDATE T SET V = V * 10;
!session 2
-- a hold goes with a rollback too
ROLLBACK;
!session 3
-- this one is free as well
UPDATE U SET V = 7 WHERE V = 5;
BEGIN;
-- a statement that counts no row holds its target
DELETE FROM T WHERE FALSE;
!session 1
-- so nobody else changes it
INSERT INTO T VALUES (9, 9);
!session 3
-- it ends without a commit
COMMIT;
!session 1
-- and then the table is free
INSERT INTO T VALUES (9, 9);
BEGIN;
-- a refused statement holds nothing
UPDATE T SET V = V + 999999999999999999;
!session 2
-- so another may change the table
DELETE FROM T WHERE K = 9;
!session 1
-- a table that is read alone isn't held
INSERT INTO U SELECT K, V FROM T WHERE FALSE;
!session 2
-- T is free, as it was only read
DELETE FROM T WHERE K = 2;
-- U is not
DELETE FROM U;
-- a table that somebody holds keeps its name
DROP TABLE U;
-- and another doesn't
DROP TABLE T;
