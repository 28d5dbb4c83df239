CREATE TABLE T(A NUMBER, "b" VARCHAR);
CREATE TABLE U(A NUMBER, B NUMBER);
CREATE TABLE INTO_(VALUES_ NUMBER);
-- a row
INSERT INTO t VALUES (1, NULL);
-- rows in their order
insert into t values (2, 'a'), (2 + 1, NULL);
-- columns
INSERT INTO t ("b", a) VALUES ('c', 4);
-- what was inserted
SELECT * FROM t;
-- a query
INSERT INTO u SELECT a, a + 1 FROM t WHERE a < 3;
-- columns and a query
INSERT INTO u (b) SELECT a FROM t WHERE a = 3 UNION ALL SELECT a FROM t WHERE a = 4;
-- names that begin as words of the rule
INSERT INTO INTO_ (VALUES_) VALUES (1);
-- what was inserted
SELECT * FROM u;
-- all rows
UPDATE into_ SET values_ = 2;
-- some rows, by two assignments
UPDATE t SET a = a + 6, "b" = NULL WHERE a = 4;
-- an assignment is a whole expression
UPDATE t SET a = a = a;
-- a condition too
DELETE FROM t WHERE a IN (1, 10) OR a = 2 AND FALSE;
-- what is left
SELECT * FROM t;
-- all rows
DELETE FROM into_;
-- a clause
MERGE INTO t USING u ON t.a = u.a WHEN MATCHED THEN UPDATE SET "b" = 'm';
-- clauses of every kind, and both aliases
MERGE INTO t x USING u AS y ON x.a = y.a WHEN MATCHED AND y.b = 0 THEN DELETE WHEN MATCHED THEN UPDATE SET "b" = 'n', a = 5 WHEN NOT MATCHED AND y.b = 3 THEN INSERT (a) VALUES (y.b + 20) WHEN NOT MATCHED THEN INSERT VALUES (y.b + 30, 'o');
-- what it made
SELECT * FROM t;
-- a query as the source
MERGE INTO t AS x USING (SELECT a FROM t WHERE a > 20) y ON x.a = y.a WHEN MATCHED AND y.a > 30 THEN DELETE;
-- what is left
SELECT * FROM t;
-- no INTO
INSERT t VALUES (1);
MERGE t USING u ON TRUE WHEN MATCHED THEN DELETE;
-- no rows
INSERT INTO t;
INSERT INTO t VALUES;
INSERT INTO t VALUES ();
INSERT INTO t VALUES 1;
INSERT INTO t DEFAULT VALUES;
-- commas between rows
INSERT INTO t VALUES (1),;
INSERT INTO t VALUES (1) (2);
INSERT INTO t VALUES (1,);
-- a list of columns
INSERT INTO t () VALUES (1);
INSERT INTO t (a VALUES (1);
INSERT INTO t (a) (b) VALUES (1);
INSERT INTO t (a,) VALUES (1);
INSERT INTO t (t.a) VALUES (1);
INSERT INTO t (SELECT) VALUES (1);
-- a call as the table
INSERT INTO sum (a) VALUES (1);
-- a query of rows has no order, and no parentheses
INSERT INTO t SELECT a FROM u ORDER BY a;
INSERT INTO t (SELECT a FROM u);
-- no alias
INSERT INTO t u VALUES (1);
UPDATE t u SET a = 1;
DELETE FROM t u;
-- SET, cut
UPDATE t;
UPDATE t SET;
UPDATE t SET a;
UPDATE t SET a = ;
UPDATE t SET a = 1,;
UPDATE t SET WHERE a = 1;
-- SET takes bare columns
UPDATE t SET t.a = 1;
UPDATE t SET (a) = 1;
UPDATE t SET 1 = a;
-- WHERE, cut or twice
UPDATE t SET a = 1 WHERE;
UPDATE t SET a = 1 WHERE TRUE WHERE TRUE;
DELETE FROM t WHERE;
DELETE FROM t WHERE a b;
-- no FROM
DELETE t;
DELETE FROM;
-- no clause
MERGE INTO t USING u ON TRUE;
MERGE INTO t USING u WHEN MATCHED THEN DELETE;
MERGE INTO t ON TRUE WHEN MATCHED THEN DELETE;
-- a clause, cut
MERGE INTO t USING u ON TRUE WHEN MATCHED DELETE;
MERGE INTO t USING u ON TRUE WHEN MATCHED THEN;
MERGE INTO t USING u ON TRUE WHEN MATCHED AND THEN DELETE;
MERGE INTO t USING u ON TRUE MATCHED THEN DELETE;
MERGE INTO t USING u ON TRUE WHEN MATCHED THEN UPDATE b = 1;
-- a match inserts nothing, and no match changes nothing
MERGE INTO t USING u ON TRUE WHEN MATCHED THEN INSERT VALUES (1);
MERGE INTO t USING u ON TRUE WHEN NOT MATCHED THEN DELETE;
MERGE INTO t USING u ON TRUE WHEN NOT MATCHED THEN UPDATE SET a = 1;
-- one row is inserted, and by VALUES
MERGE INTO t USING u ON TRUE WHEN NOT MATCHED THEN INSERT VALUES (1), (2);
MERGE INTO t USING u ON TRUE WHEN NOT MATCHED THEN INSERT (a) SELECT 1 FROM u;
-- a source in parentheses has an alias
MERGE INTO t USING (SELECT a FROM u) ON TRUE WHEN MATCHED THEN DELETE;
