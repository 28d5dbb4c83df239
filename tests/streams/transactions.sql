CREATE TABLE T(K NUMBER, V NUMBER);
CREATE TABLE C(K NUMBER, V NUMBER);
CREATE STREAM S ON TABLE T;
INSERT INTO T VALUES (1, 10);
BEGIN;
-- a transaction reads up to its start
SELECT K FROM S;
INSERT INTO T VALUES (2, 20);
-- its own changes aren't in the range
SELECT K FROM S;
ROLLBACK;
-- a read moves nothing
SELECT K FROM S;
BEGIN;
!session 2
INSERT INTO T VALUES (4, 40);
!session 1
-- what another session committed behind the start isn't shown
SELECT K FROM S;
-- though the table shows it
SELECT K FROM T;
-- it is read and held
INSERT INTO C SELECT K, V FROM S;
-- and shows the same in its transaction
SELECT K FROM S;
-- also to a changing statement
INSERT INTO C SELECT K + 10, V FROM S;
!session 2
-- to another session it shows all behind the committed offset
SELECT K FROM S;
CREATE TABLE D(K NUMBER);
-- which can't move it
INSERT INTO D SELECT K FROM S;
-- nor drop it
DROP STREAM S;
!session 1
ROLLBACK;
-- a rollback moves nothing
SELECT K FROM S;
-- and keeps nothing
SELECT K FROM C;
BEGIN;
INSERT INTO C SELECT K, V FROM S;
!session 2
INSERT INTO T VALUES (5, 50);
!session 1
-- the offset moves up to the start
COMMIT;
-- so what came behind it is shown
SELECT K FROM S;
BEGIN;
!session 2
-- a statement of another session moves it past that start
INSERT INTO D SELECT K FROM S;
!session 1
-- then nothing is left to read
INSERT INTO C SELECT K, V FROM S;
-- its commit is one all the same
COMMIT;
-- and the offset doesn't go back
SELECT K FROM S;
INSERT INTO T VALUES (6, 60);
BEGIN;
INSERT INTO C SELECT K, V FROM S;
INSERT INTO C SELECT NOPE FROM S;
!session 3
-- a refused statement leaves what was held
INSERT INTO D SELECT K FROM S;
!session 1
COMMIT;
!session 3
-- a hold ends with its transaction, and what was moved isn't moved again
INSERT INTO D SELECT K FROM S;
!session 1
INSERT INTO T VALUES (7, 70);
BEGIN;
INSERT INTO C SELECT K, V + 999999999999999999 FROM S;
-- a refused statement reads nothing
COMMIT;
BEGIN;
-- nor does a SELECT
SELECT K FROM S;
COMMIT;
