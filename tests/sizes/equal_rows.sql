CREATE TABLE T(K NUMBER);
INSERT INTO T VALUES (7), (7), (7), (7), (7), (7), (7);
-- a join of seven equal rows with themselves
INSERT INTO T SELECT A.K FROM T A JOIN T B ON A.K = B.K;
-- of all 56 with themselves
SELECT COUNT(*) AS N FROM T A JOIN T B ON A.K = B.K;
CREATE TABLE U(K NUMBER);
CREATE TABLE E(K NUMBER);
CREATE TABLE F(K NUMBER);
INSERT INTO E VALUES (7), (7), (7), (7), (7), (7), (7), (7), (7), (7), (7);
INSERT INTO F VALUES (7), (7), (7), (7), (7), (7), (7), (7), (7), (7), (7), (7), (7);
DELETE FROM T;
INSERT INTO T VALUES (7), (7), (7), (7), (7), (7), (7);
-- a row that a query gives 1,001 times
INSERT INTO U SELECT T.K FROM T JOIN E ON T.K = E.K JOIN F ON T.K = F.K;
-- it counts so often
SELECT COUNT(*) AS N, SUM(K) AS S FROM U;
-- in a group too
SELECT K, COUNT(*) AS N FROM U GROUP BY K;
-- and is listed so often
SELECT K FROM U;
-- a statement counts each
UPDATE U SET K = 8;
-- in a union twice
SELECT COUNT(*) AS N FROM (SELECT K FROM U UNION ALL SELECT K FROM U) Q;
-- each of them goes
DELETE FROM U;
