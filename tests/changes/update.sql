CREATE TABLE T(K NUMBER, V NUMBER, W VARCHAR);
CREATE TABLE E(K NUMBER);
CREATE TABLE TWO(X NUMBER);
INSERT INTO TWO VALUES (1), (1);
INSERT INTO T VALUES (1, 10, 'a'), (2, NULL, 'b'), (3, 30, NULL);
-- without WHERE every row is changed
UPDATE T SET V = V + 1;
-- NULL and one is NULL
SELECT * FROM T;
-- a row on which WHERE is NULL stays
UPDATE T SET W = 'c' WHERE V > 20;
-- NOT of NULL is NULL
UPDATE T SET W = 'd' WHERE NOT V > 20;
-- a WHERE that is NULL
UPDATE T SET W = 'e' WHERE NULL;
-- the second row was never selected
SELECT K, W FROM T;
-- each part of SET reads the old row
UPDATE T SET K = V, V = K;
-- so two columns are exchanged
SELECT K, V FROM T;
-- also a part behind the one that sets its column
UPDATE T SET K = K + 100, V = K + V WHERE K = 11;
-- the old column was read
SELECT K, V FROM T WHERE K = 111;
-- a row that becomes an equal one counts
UPDATE T SET K = K;
-- one that is set to what it has too
UPDATE T SET W = 'c' WHERE W = 'c';
-- a column is set to NULL
UPDATE T SET V = NULL WHERE K = 31;
-- the table's name before columns
UPDATE T SET V = T.K + 1 WHERE T.V IS NULL;
-- a table without rows
UPDATE E SET K = 999999999999999999 + 1;
-- a part of 19 digits is evaluated on no row
UPDATE T SET V = K * 999999999999999999 WHERE K = 0;
UPDATE T SET V = 999999999999999999 WHERE K = 31;
-- a part of 19 digits on one row of those that are selected
UPDATE T SET V = V + 1;
-- on a row that isn't selected
UPDATE T SET V = V + 1 WHERE K = 111;
-- WHERE is evaluated on every row
UPDATE T SET W = 'x' WHERE K = 111 AND V + 1 > 0;
-- and in all its parts
UPDATE T SET W = 'x' WHERE FALSE AND V + 1 > 0;
-- refused statements change nothing
SELECT * FROM T;
-- a changed row keeps its number
MERGE INTO T USING TWO ON TRUE WHEN MATCHED THEN DELETE;
-- an unknown table
UPDATE NOPE SET K = 1;
-- an unknown column that is set
UPDATE T SET ZZ = 1;
-- an unknown column in a part
UPDATE T SET K = ZZ;
-- a column of another table
UPDATE T SET K = TWO.X;
-- an unknown column in WHERE
UPDATE T SET K = 1 WHERE ZZ = 1;
-- a column that is set twice
UPDATE T SET V = 1, K = 2, V = 3;
-- of two that are set twice the one whose first place stands first
UPDATE T SET V = 1, K = 2, K = 3, V = 4;
-- a text for a number
UPDATE T SET K = 'a';
-- a number for a text
UPDATE T SET W = 1;
-- a truth value for a number
UPDATE T SET K = V = 1;
-- WHERE takes a truth value
UPDATE T SET K = 1 WHERE K;
-- no call in SET
UPDATE T SET K = COUNT(*);
-- no call in WHERE
UPDATE T SET K = 1 WHERE SUM(K) > 1;
-- types are tested over no row too
UPDATE E SET K = 'a';
-- UPDATE has no alias
UPDATE T A SET K = 1;
-- no table's name before the column that is set
UPDATE T SET T.K = 1;
