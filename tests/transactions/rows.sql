CREATE TABLE T(K NUMBER, V NUMBER);
CREATE TABLE U(K NUMBER, V NUMBER);
INSERT INTO T VALUES (1, 10);
BEGIN;
INSERT INTO T VALUES (2, 20), (3, 30), (4, 40);
-- a row that was added is changed
UPDATE T SET V = 21 WHERE K = 2;
-- one goes again
DELETE FROM T WHERE K = 3;
-- a changed one is changed once more, and a committed one beside it
UPDATE T SET V = V + 1 WHERE K < 3;
INSERT INTO T VALUES (5, 50);
-- what has come of it
SELECT * FROM T;
-- a source row for two rows that were added
MERGE INTO T USING (SELECT K, V FROM T WHERE K = 4) AS S ON T.K >= S.K WHEN MATCHED THEN UPDATE SET V = S.V;
-- several source rows for an added row
MERGE INTO T USING (SELECT V FROM T) AS S ON T.K = 5 WHEN MATCHED THEN DELETE;
-- the first by its number is told: a committed row stands before those that were added
MERGE INTO T USING (SELECT V FROM T) AS S ON TRUE WHEN MATCHED THEN DELETE;
-- of added rows the first that was added and is left
MERGE INTO T USING (SELECT V FROM T) AS S ON T.K > 1 WHEN MATCHED THEN DELETE;
-- nothing of a refused statement is left
SELECT * FROM T;
-- one version for all of it
COMMIT;
-- numbers follow the order of adding: the first of two is told
MERGE INTO T USING (SELECT V FROM T) AS S ON T.K > 2 WHEN MATCHED THEN DELETE;
BEGIN;
INSERT INTO T VALUES (6, 60);
-- all go, also the one that was added
DELETE FROM T WHERE K > 3;
-- rows come again
INSERT INTO T SELECT K + 10, V FROM T;
-- committed rows, and then those that came, in their order
SELECT * FROM T;
COMMIT;
-- their numbers follow that order: the first that came is told
MERGE INTO T USING (SELECT V FROM T) AS S ON T.K > 10 WHEN MATCHED THEN DELETE;
BEGIN;
INSERT INTO U VALUES (3, 1), (1, 2), (2, 3);
INSERT INTO U VALUES (0, 4);
COMMIT;
-- numbers are given in the order of adding, not of the rows
MERGE INTO U USING (SELECT V FROM U) AS S ON TRUE WHEN MATCHED THEN DELETE;
-- a statement at a time removes them
DELETE FROM U WHERE K = 3;
-- the next by its number
MERGE INTO U USING (SELECT V FROM U) AS S ON TRUE WHEN MATCHED THEN DELETE;
BEGIN;
-- a row is added by a MERGE
MERGE INTO U USING T ON U.K = T.K WHEN NOT MATCHED THEN INSERT VALUES (T.K, 0);
-- and matched by the next
MERGE INTO U USING T ON U.K = T.K WHEN MATCHED THEN UPDATE SET V = T.V WHEN NOT MATCHED THEN INSERT VALUES (T.K, 9);
-- each row of U once
SELECT * FROM U;
ROLLBACK;
-- none of it was kept
SELECT * FROM U;
