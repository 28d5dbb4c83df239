CREATE TABLE D(N NUMBER);
INSERT INTO D VALUES (0), (1), (2), (3), (4), (5), (6), (7), (8), (9);
CREATE TABLE T(K NUMBER, V NUMBER);
-- 1 to 1000 in the first partition
INSERT INTO T SELECT A.N * 100 + B.N * 10 + C.N + 1, 0 FROM D A JOIN D B ON TRUE JOIN D C ON TRUE;
-- 1001 to 2000 in the second
INSERT INTO T SELECT K + 1000, 0 FROM T;
-- 2001 to 2500 in the third
INSERT INTO T SELECT K + 2000, 0 FROM T WHERE K <= 500;
-- one number alone in the fourth
INSERT INTO T VALUES (3000, 0), (3000, 1);
-- a number and NULL in the fifth
INSERT INTO T VALUES (4000, 0), (NULL, 0);
-- NULLs alone in the sixth
INSERT INTO T VALUES (NULL, 1), (NULL, NULL);
-- the least value of the second
UPDATE T SET V = V + 1 WHERE K = 1001;
-- and the greatest of the first
UPDATE T SET V = V + 1 WHERE K = 1000;
-- below the least
UPDATE T SET V = V + 1 WHERE K < 1;
-- at the least
UPDATE T SET V = V + 1 WHERE K <= 1;
-- above the greatest number, in front of a NULL
UPDATE T SET V = V + 1 WHERE K > 4000;
-- at the greatest
UPDATE T SET V = V + 1 WHERE K >= 4000;
-- the last of the first partition and the first of the second
UPDATE T SET V = V + 10 WHERE K >= 1000 AND K < 1002;
-- between two partitions there is none
UPDATE T SET V = V + 10 WHERE K BETWEEN 2501 AND 2999;
-- over all of the second
UPDATE T SET V = V + 10 WHERE K BETWEEN 1001 AND 2000;
-- a number on the left
UPDATE T SET V = V + 10 WHERE 2500 < K;
-- and with equality
UPDATE T SET V = V + 10 WHERE 2500 <= K;
-- each but the one number of the fourth
UPDATE T SET V = V + 100 WHERE K <> 3000 AND K > 2500;
-- NULL is equal to nothing
UPDATE T SET V = V + 100 WHERE K = NULL;
-- the NULLs of two partitions
UPDATE T SET V = 7 WHERE K IS NULL;
-- no row has both
UPDATE T SET V = 8 WHERE K IS NULL AND K = 3000;
-- rows of the first and of the fifth
UPDATE T SET V = V + 1000 WHERE K < 3 OR K > 3500;
-- with IN
UPDATE T SET V = V + 1000 WHERE K IN (5, 2100, 3000, 9999, NULL);
-- what was changed
SELECT V, COUNT(*) AS N FROM T GROUP BY V;
-- by the other column, which has bounds of its own
UPDATE T SET V = V - 1 WHERE V > 1000;
-- and which has others than 0 in each partition but two
SELECT COUNT(*) AS N FROM T WHERE V > 0;
-- a condition without a column
UPDATE T SET V = V + 1 WHERE FALSE;
-- that is TRUE
UPDATE T SET V = V + 1 WHERE 1 < 2;
-- arithmetic is evaluated on every row
UPDATE T SET V = 0 WHERE K + 0 = 2500;
-- also where another part is FALSE
UPDATE T SET V = 999999999999999999 WHERE K = 3;
-- so that one row of another partition refuses it
UPDATE T SET V = 0 WHERE K = 2500 AND V + 1 > 0;
-- a DELETE too
DELETE FROM T WHERE K = 2500 AND V + 1 > 0;
-- without arithmetic it isn't looked at
UPDATE T SET V = V + 1 WHERE K = 2500;
-- SET is evaluated on the selected rows alone
UPDATE T SET V = V + 1 WHERE K <= 3;
-- a DELETE of none
DELETE FROM T WHERE K < 1 AND V >= 0;
-- a row by its other value, which is the greatest of all
DELETE FROM T WHERE V = 999999999999999999;
-- the least of the third
DELETE FROM T WHERE K = 2001;
-- there is none at that bound any more
DELETE FROM T WHERE K = 2001;
-- nor between the second and the third
DELETE FROM T WHERE K > 2000 AND K < 2002;
-- the greatest of the first and all of the second but one
DELETE FROM T WHERE K >= 1000 AND K < 2000;
-- what is left
SELECT COUNT(*) AS N, SUM(K) AS K, SUM(V) AS V FROM T;
BEGIN;
-- a row of the first partition is set beyond its bounds
UPDATE T SET K = 5000 WHERE K = 10;
-- and found there
UPDATE T SET V = 77 WHERE K = 5000;
-- and no more where it was
UPDATE T SET V = 78 WHERE K = 10;
-- a row of the third is set below those of the first
UPDATE T SET K = -5 WHERE K = 2400;
-- both are found beside rows that were not changed
UPDATE T SET V = V + 1 WHERE K < 2 OR K >= 4000;
-- rows that the transaction brought are in no partition
INSERT INTO T VALUES (10, 1), (6000, NULL), (NULL, 6);
-- they are found by a value that a partition had
UPDATE T SET V = 3 WHERE K = 10;
-- by one beyond all partitions
DELETE FROM T WHERE K > 5500;
-- by NULL
UPDATE T SET K = 6001 WHERE K IS NULL AND V = 6;
-- and by what they became
UPDATE T SET V = 4 WHERE K = 6001;
-- a row that went is found no more
DELETE FROM T WHERE K = 3000 AND V = 1020;
-- though its partition is read again
DELETE FROM T WHERE K = 3000 AND V = 1020;
-- arithmetic meets the rows of the transaction
UPDATE T SET V = 999999999999999999 WHERE K = -5;
-- and those of partitions that no other part selects
DELETE FROM T WHERE K = 4000 AND V + 1 > 0;
-- a DELETE of rows of all kinds
DELETE FROM T WHERE K = -5 OR K = 5000 OR K = 6001 OR K = 2002;
!session 2
-- the table is held, also where no row is selected
UPDATE T SET V = 5 WHERE K = 10000;
-- a SELECT sees the rows as they were
SELECT COUNT(*) AS N FROM T WHERE K >= 3000;
!session 1
-- and this one what it made of them
SELECT COUNT(*) AS N, SUM(K) AS K, SUM(V) AS V FROM T;
COMMIT;
-- the same behind the COMMIT
SELECT COUNT(*) AS N, SUM(K) AS K, SUM(V) AS V FROM T;
-- a stream behind it shows what one DELETE found
CREATE STREAM S ON TABLE T;
DELETE FROM T WHERE K BETWEEN 999 AND 2003;
SELECT METADATA$ACTION AS A, K FROM S;
-- texts and truths have bounds too
CREATE TABLE X(S VARCHAR, B BOOLEAN);
INSERT INTO X VALUES ('a', FALSE), ('m', FALSE);
INSERT INTO X VALUES ('m', TRUE), ('z', NULL);
-- below both
DELETE FROM X WHERE S < 'a';
-- in both
UPDATE X SET S = 'mm' WHERE S = 'm';
-- in the second
UPDATE X SET S = 'zz' WHERE S > 'mm';
-- in the first
UPDATE X SET S = 'b' WHERE B = FALSE AND S < 'b';
-- a truth value is a condition
DELETE FROM X WHERE B;
-- and NOT is one
DELETE FROM X WHERE NOT B AND S >= 'mm';
-- what is left
SELECT * FROM X;
-- a table without rows has no partition
DELETE FROM X;
UPDATE X SET B = TRUE WHERE S = 'a';
