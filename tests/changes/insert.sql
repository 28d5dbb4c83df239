CREATE TABLE T(K NUMBER, V NUMBER);
CREATE TABLE U(K NUMBER, W VARCHAR);
CREATE TABLE B(P BOOLEAN, W VARCHAR, N NUMBER);
CREATE TABLE TWO(X NUMBER);
-- equal rows count each
INSERT INTO TWO VALUES (1), (1);
-- values are expressions
INSERT INTO T VALUES (1 + 2, 2 * 5), (- 4, 7 - 10);
-- what they give
SELECT * FROM T;
-- a comparison is a truth value, and NULL fits each column
INSERT INTO B VALUES (1 < 2, 'a', NULL), (NULL, NULL, NULL), (NOT TRUE, '', 0);
-- rows of three types
SELECT * FROM B;
-- a list of columns in another order
INSERT INTO T (V, K) VALUES (20, 5);
-- a column that the list leaves out is NULL
INSERT INTO T (V) VALUES (30), (31);
-- each value in its column
SELECT * FROM T WHERE V >= 20;
-- two columns of three in another order
INSERT INTO B (N, P) VALUES (8, TRUE);
-- the one between them is NULL
SELECT * FROM B WHERE N = 8;
-- a query sees the table as it was
INSERT INTO T SELECT * FROM T;
-- each row stands twice
SELECT COUNT(*) AS N, COUNT(K) AS M, SUM(V) AS S FROM T;
-- a query without rows
INSERT INTO T SELECT K, V FROM T WHERE FALSE;
-- a query with a call, and a list
INSERT INTO U (K) SELECT COUNT(*) FROM T;
-- a query of two cores
INSERT INTO U SELECT 1, 'b' FROM TWO UNION ALL SELECT 2, 'a' FROM TWO;
-- a column that is NULL in every core fits a text
INSERT INTO U (W) SELECT NULL FROM TWO;
-- and no number
INSERT INTO U (K) SELECT NULL FROM TWO;
-- the rows of these queries
SELECT * FROM U;
CREATE TABLE N(K NUMBER, V NUMBER);
CREATE TABLE O(K NUMBER, V NUMBER);
INSERT INTO N VALUES (3, 1), (1, 2), (2, 3);
-- of rows of VALUES the first written has the least number
MERGE INTO N USING TWO ON TRUE WHEN MATCHED THEN DELETE;
INSERT INTO O SELECT K, V FROM N;
-- of rows of a query the first in the row order
MERGE INTO O USING TWO ON TRUE WHEN MATCHED THEN DELETE;
DELETE FROM O;
INSERT INTO O (V, K) SELECT V, K FROM N;
-- in the order of the query's columns, whatever the list is
MERGE INTO O USING TWO ON TRUE WHEN MATCHED THEN DELETE;
INSERT INTO N VALUES (0, 0);
DELETE FROM N WHERE K = 3;
-- a later row has a greater number than those before it
MERGE INTO N USING TWO ON TRUE WHEN MATCHED THEN DELETE;
-- a query of INSERT has no ORDER BY
INSERT INTO O SELECT K, V FROM N ORDER BY 1;
-- a value too few
INSERT INTO T VALUES (1);
-- a value too many
INSERT INTO T VALUES (1, 2, 3);
-- a value too few in the second row
INSERT INTO T VALUES (1, 2), (3);
-- more values than the list has columns
INSERT INTO T (K) VALUES (1, 2);
-- a query of one column for two
INSERT INTO T SELECT K FROM T;
-- a query of one column for a list of one
INSERT INTO T (V) SELECT K FROM T WHERE K = 5;
-- a text for a number
INSERT INTO T VALUES (1, 'a');
-- a truth value for a number
INSERT INTO T VALUES (1 = 1, 2);
-- a number for a text
INSERT INTO U VALUES (1, 2);
-- a number for a truth value
INSERT INTO B (P) VALUES (1);
-- a query's text for a number
INSERT INTO T SELECT K, W FROM U;
-- no column has a meaning among VALUES
INSERT INTO T VALUES (K, 1);
-- with the table's name neither
INSERT INTO T VALUES (1, T.V);
-- no call among VALUES
INSERT INTO T VALUES (COUNT(*), 1);
-- no call of a constant either
INSERT INTO T VALUES (1, SUM(1));
-- a list with an unknown column
INSERT INTO T (K, ZZ) VALUES (1, 2);
-- a list with a column twice
INSERT INTO T (K, V, K) VALUES (1, 2, 3);
-- of two that come twice the one whose first place stands first
INSERT INTO T (K, V, V, K) VALUES (1, 2, 3, 4);
-- an unknown table
INSERT INTO NOPE VALUES (1);
-- a value of 19 digits in the second row
INSERT INTO T VALUES (1, 1), (2, 999999999999999999 + 1);
-- an item of 19 digits
INSERT INTO T SELECT K, V * 999999999999999999 FROM T WHERE K = 5;
-- refused statements add nothing
SELECT COUNT(*) AS N FROM T;
