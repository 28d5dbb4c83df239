CREATE TABLE T(K NUMBER, V NUMBER);
-- a transaction has its stamp as its number
BEGIN;
-- no row is there yet
SELECT K FROM T;
!session 2
INSERT INTO T VALUES (1, 1);
!session 1
-- what another session committed is seen at once
SELECT K FROM T;
INSERT INTO T VALUES (2, 2);
-- a transaction sees its own row beside it
SELECT * FROM T;
!session 2
-- and no other session does
SELECT * FROM T;
!session 1
-- a row that is committed and one that isn't are changed alike
UPDATE T SET V = V + 10;
-- a change is seen by what follows
SELECT * FROM T WHERE V > 10;
-- also by the same statement's kind
UPDATE T SET V = V * 2 WHERE V = 12;
-- each change once
SELECT * FROM T;
!session 2
-- others see the committed row as it was
SELECT * FROM T;
!session 1
-- a query of an INSERT sees the transaction's rows, and none of its own
INSERT INTO T SELECT K + 2, V FROM T;
-- four rows are there
SELECT * FROM T;
-- a committed row goes
DELETE FROM T WHERE K = 1;
-- a row that was added goes
DELETE FROM T WHERE K = 4;
-- neither is seen
SELECT * FROM T;
-- a join sees them too
SELECT A.K, B.K FROM T AS A JOIN T AS B ON A.K < B.K;
-- so does a group
SELECT COUNT(*), SUM(V) FROM T;
-- the commit has a stamp of its own
COMMIT;
!session 2
-- now others see it
SELECT * FROM T;
BEGIN;
DELETE FROM T;
-- all rows are gone for this session
SELECT * FROM T;
!session 1
-- and there for another
SELECT * FROM T;
!session 2
-- nothing is kept
ROLLBACK;
-- all is as it was
SELECT * FROM T;
