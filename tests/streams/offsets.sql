CREATE TABLE T(K NUMBER, V NUMBER);
CREATE TABLE C(K NUMBER, V NUMBER);
CREATE STREAM S ON TABLE T;
INSERT INTO T VALUES (1, 10);
-- a SELECT moves nothing
SELECT K FROM S;
-- so it shows the same again
SELECT K FROM S;
-- an INSERT that reads it moves it on
INSERT INTO C SELECT K, V FROM S;
-- and it is empty then
SELECT K FROM S;
-- the rows were moved once
SELECT * FROM C;
UPDATE T SET V = 11;
-- then it shows what came behind that
SELECT K, V, METADATA$ACTION FROM S;
-- the query of an INSERT that adds no row moves it too
INSERT INTO C SELECT K, V FROM S WHERE K = 99;
SELECT K FROM S;
INSERT INTO T VALUES (2, 20);
-- and a MERGE
MERGE INTO C USING (SELECT K, V FROM S) Q ON C.K = Q.K WHEN MATCHED THEN DELETE;
-- though no clause was selected
SELECT K FROM S;
INSERT INTO T VALUES (3, 30);
-- a refused INSERT moves nothing
INSERT INTO C SELECT K, V + 999999999999999999 FROM S;
SELECT K FROM S;
-- a table that is read beside it is read as it is now
INSERT INTO C SELECT T.K, T.V FROM T JOIN S ON T.K = S.K;
SELECT * FROM C;
CREATE STREAM S2 ON TABLE T;
INSERT INTO T VALUES (4, 40);
-- two streams on one table have offsets of their own
INSERT INTO C SELECT K, V FROM S;
SELECT K FROM S2;
SELECT K FROM S;
-- one that reads both moves both
INSERT INTO C SELECT S.K, S2.V FROM S JOIN S2 ON S.K = S2.K;
SELECT K FROM S2;
INSERT INTO T VALUES (5, 50);
-- a stream that is read twice is read once
INSERT INTO C SELECT K, V FROM S UNION ALL SELECT K, V FROM S;
SELECT K, COUNT(*) AS N FROM C WHERE K = 5 GROUP BY K;
SELECT K FROM S;
-- changes of its own table by what it shows come behind the range
INSERT INTO T SELECT K + 100, V FROM S2;
SELECT K FROM S2;
-- and so once more
INSERT INTO T SELECT K + 100, V FROM S2;
SELECT K FROM S2;
