CREATE TABLE T(K NUMBER, V NUMBER);
CREATE TABLE E(K NUMBER);
CREATE TABLE TWO(X NUMBER);
INSERT INTO TWO VALUES (1), (1);
INSERT INTO T VALUES (1, 10), (1, 10), (2, NULL), (3, 30), (NULL, 40);
-- equal rows count each
DELETE FROM T WHERE V = 10;
-- a row on which WHERE is NULL stays
DELETE FROM T WHERE V < 35;
-- what stays
SELECT * FROM T;
-- IS NULL selects it
DELETE FROM T WHERE K IS NULL;
-- no row is selected
DELETE FROM T WHERE K = 7;
-- a WHERE that is NULL
DELETE FROM T WHERE NULL;
-- without WHERE every row goes
DELETE FROM T;
-- a table without rows
DELETE FROM T;
-- its columns stay
SELECT * FROM T;
INSERT INTO T VALUES (5, 50), (6, 60), (7, 999999999999999999);
DELETE FROM T WHERE K = 5;
INSERT INTO T VALUES (5, 50);
-- a row that is added again has a new number
MERGE INTO T USING TWO ON TRUE WHEN MATCHED THEN DELETE;
-- WHERE is evaluated on every row
DELETE FROM T WHERE K = 6 AND V + 1 > 0;
-- and in all its parts
DELETE FROM T WHERE TRUE OR V + 1 > 0;
-- over no row it isn't evaluated
DELETE FROM E WHERE 999999999999999999 + 1 > 0;
-- refused statements remove nothing
SELECT K FROM T;
-- the table's name before a column
DELETE FROM T WHERE T.K = 7;
-- an unknown table
DELETE FROM NOPE;
-- an unknown column
DELETE FROM T WHERE ZZ = 1;
-- a column of no entry
DELETE FROM T WHERE A.K = 1;
-- no call in WHERE
DELETE FROM T WHERE COUNT(*) = 1;
-- WHERE takes a truth value
DELETE FROM T WHERE V;
-- no comparison of two types
DELETE FROM T WHERE K = 'a';
-- DELETE has no alias
DELETE FROM T A WHERE A.K = 1;
-- FROM is written
DELETE T;
