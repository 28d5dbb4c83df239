CREATE TABLE T(K NUMBER, V VARCHAR);
INSERT INTO T VALUES (1, 'a'), (2, 'b'), (3, NULL);
CREATE STREAM S ON TABLE T;
-- rows from before its creation aren't shown
SELECT * FROM S;
INSERT INTO T VALUES (4, 'd');
-- a row that came
SELECT * FROM S;
DELETE FROM T WHERE K = 2;
-- a row that went, with its values as they were
SELECT * FROM S;
UPDATE T SET V = 'c' WHERE K = 3;
-- a row that was changed, as it was and as it is, both marked
SELECT * FROM S WHERE K = 3;
UPDATE T SET V = NULL WHERE K = 3;
-- a change that was undone
SELECT * FROM S WHERE K = 3;
UPDATE T SET V = 'x' WHERE K = 4;
-- a row that came and was changed came as it is now
SELECT * FROM S WHERE K = 4;
DELETE FROM T WHERE K = 4;
-- a row that came and went
SELECT * FROM S WHERE K = 4;
UPDATE T SET V = 'z' WHERE K = 1;
DELETE FROM T WHERE K = 1;
-- a row that was changed and went, as it was, and unmarked
SELECT * FROM S WHERE K = 1;
INSERT INTO T VALUES (2, 'b');
-- an equal row that comes again is another row
SELECT * FROM S WHERE K = 2;
UPDATE T SET K = K;
-- equal new values show nothing
SELECT COUNT(*) AS N FROM S;
-- a stream's columns stand behind those of its table
SELECT METADATA$ROW_ID, K FROM S WHERE METADATA$ACTION = 'INSERT';
-- the mark is a BOOLEAN
SELECT K FROM S WHERE NOT METADATA$ISUPDATE AND V = 'a';
-- a stream stands beside tables
SELECT T.K AS K, S.METADATA$ACTION AS A FROM T JOIN S ON T.K = S.K;
-- and beside itself
SELECT COUNT(*) AS N FROM S A JOIN S B ON A.METADATA$ROW_ID = B.METADATA$ROW_ID;
CREATE TABLE U(K NUMBER);
CREATE STREAM R ON TABLE U;
INSERT INTO U VALUES (7), (7);
-- equal rows are two, by their numbers
SELECT * FROM R;
-- and count each
SELECT K, COUNT(*) AS N FROM R GROUP BY K;
-- in a subquery
SELECT N FROM (SELECT COUNT(*) AS N FROM R WHERE METADATA$ACTION = 'INSERT') Q;
-- under UNION ALL
SELECT K FROM R UNION ALL SELECT K FROM U;
