CREATE TABLE D(N NUMBER);
CREATE TABLE T(K NUMBER, V NUMBER);
CREATE TABLE TWO(X NUMBER);
INSERT INTO TWO VALUES (1), (1);
INSERT INTO D VALUES (0), (1), (2), (3), (4), (5), (6), (7), (8), (9);
-- a thousand rows, which fill a partition
INSERT INTO T SELECT A.N * 100 + B.N * 10 + C.N, 0 FROM D A JOIN D B ON TRUE JOIN D C ON TRUE;
-- a thousand more
INSERT INTO T SELECT K + 1000, V FROM T;
-- and five hundred
INSERT INTO T SELECT K + 2000, V FROM T WHERE K < 500;
-- rows of three partitions
SELECT COUNT(*) AS N, SUM(K) AS S FROM T;
-- one row of the second
UPDATE T SET V = 1 WHERE K = 1500;
-- all rows of the first
DELETE FROM T WHERE K < 1000;
-- what is left
SELECT COUNT(*) AS N, SUM(K) AS S, SUM(V) AS C FROM T;
-- rows come again, behind the others
INSERT INTO T SELECT K - 1000, 2 FROM T WHERE K < 2000;
-- rows of two partitions
UPDATE T SET V = V + 10 WHERE K BETWEEN 900 AND 1099;
-- each row once
SELECT V, COUNT(*) AS N FROM T GROUP BY V;
-- the row of the least number is the first of those that stayed
MERGE INTO T USING TWO ON TRUE WHEN MATCHED THEN DELETE;
-- ten rows of one partition go
MERGE INTO T USING D ON T.K = D.N + 2490 WHEN MATCHED THEN DELETE WHEN NOT MATCHED THEN INSERT VALUES (D.N, 0);
-- five are changed and five come
MERGE INTO T USING D ON T.K = D.N + 2485 WHEN MATCHED THEN UPDATE SET V = 7 WHEN NOT MATCHED THEN INSERT VALUES (D.N + 2485, 8);
-- rows from 2000 on
SELECT COUNT(*) AS N, SUM(K) AS S, SUM(V) AS C FROM T WHERE K >= 2000;
-- every row goes
DELETE FROM T;
-- a table without rows
SELECT * FROM T;
-- it takes rows again
INSERT INTO T VALUES (1, 1);
-- one row
SELECT * FROM T;
