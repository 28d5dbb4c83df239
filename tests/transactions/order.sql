CREATE TABLE T(K NUMBER, V NUMBER);
CREATE TABLE U(K NUMBER, W VARCHAR);
INSERT INTO T VALUES (1, 999999999999999999), (2, 2);
INSERT INTO U VALUES (1, 'a'), (1, 'b');
-- no transaction is open
COMMIT;
-- nor to be rolled back
ROLLBACK;
BEGIN;
-- one is open
BEGIN;
-- no dynamic table is made in a transaction
CREATE DYNAMIC TABLE D TARGET_LAG = DOWNSTREAM AS SELECT K FROM T;
-- no task is made in a transaction
CREATE TASK A AS DELETE FROM T;
-- nor another object
CREATE TABLE N(K NUMBER);
-- before its name is looked at
CREATE TABLE T(K NUMBER, K NUMBER);
-- nor replaced
CREATE OR REPLACE TABLE T(K NUMBER);
-- nor dropped
DROP TABLE T;
-- whether or not there is one
DROP TABLE NOPE;
-- a session that there isn't, before its transaction
!session 65
COMMIT;
!session 2
-- a transaction is a session's own
COMMIT;
-- also for ROLLBACK
ROLLBACK;
-- and for DDL
CREATE TABLE N(K NUMBER);
!session 1
UPDATE T SET V = 1 WHERE K = 2;
!session 2
-- a name before a hold
UPDATE T SET ZZ = 1;
-- a type before a hold
UPDATE T SET V = 'a';
-- a query's table before a hold
INSERT INTO T SELECT * FROM NOPE;
-- a hold before an evaluation
UPDATE T SET V = V + 1;
-- a hold before a row that is ambiguous
MERGE INTO T USING U ON T.K = U.K WHEN MATCHED THEN DELETE;
-- a column that comes twice before a hold
CREATE OR REPLACE TABLE T(A NUMBER, A NUMBER);
-- a retention before a hold
CREATE OR REPLACE TABLE T(A NUMBER) DATA_RETENTION_TIME_IN_DAYS = 91;
-- a name that is taken before a hold
CREATE TABLE T(A NUMBER);
-- then the hold
CREATE OR REPLACE TABLE T(A NUMBER);
!session 1
-- an evaluation in the transaction that holds it
UPDATE T SET V = V + 1;
-- a row that is ambiguous there
MERGE INTO T USING U ON T.K = U.K WHEN MATCHED THEN DELETE;
-- refused statements leave the transaction as it was
SELECT * FROM T;
-- and open
BEGIN TRANSACTION;
-- it ends
ROLLBACK WORK;
-- and is no more
ROLLBACK;
-- another begins
START TRANSACTION;
-- and touches nothing
COMMIT WORK;
