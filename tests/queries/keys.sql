CREATE TABLE L(K NUMBER, V VARCHAR, W NUMBER);
CREATE TABLE R(K NUMBER, V VARCHAR, W NUMBER);
INSERT INTO L VALUES (1, 'a', 10), (1, 'a', 10), (2, 'b', 20), (NULL, 'c', 30), (3, NULL, 40);
INSERT INTO R VALUES (1, 'a', 100), (1, 'x', 101), (1, 'a', 100), (2, 'b', 200), (NULL, 'c', 300), (3, NULL, 400);
-- equal rows stand as often as they count, on both sides
SELECT L.K, L.W, R.W AS X FROM L JOIN R ON L.K = R.K;
-- the sides of the equality the other way round
SELECT COUNT(*) AS N FROM L JOIN R ON R.K = L.K;
-- a NULL meets nothing, not even a NULL
SELECT L.W, R.W AS X FROM L JOIN R ON L.K = R.K AND L.V = R.V;
-- two keys, and a condition beside them
SELECT L.K, R.W AS X FROM L JOIN R ON L.K = R.K AND R.W > 100 AND L.V = R.V;
-- an equality behind OR is no key
SELECT COUNT(*) AS N FROM L JOIN R ON L.K = R.K OR L.V = R.V;
-- an equality of one side alone is none
SELECT L.K, L.W, R.W AS X FROM L JOIN R ON L.K = 2 AND R.K = R.K AND R.K = 3;
-- with a constant
SELECT L.K, R.K AS J FROM L JOIN R ON L.K = R.K AND L.K = 2;
-- texts and truths as keys
SELECT L.V, COUNT(*) AS N FROM L JOIN R ON L.V = R.V GROUP BY L.V;
CREATE TABLE F(B BOOLEAN);
INSERT INTO F VALUES (TRUE), (FALSE), (NULL), (TRUE);
SELECT A.B, COUNT(*) AS N FROM F AS A JOIN F AS B ON A.B = B.B GROUP BY A.B;
-- NOT of an unequal is no key, and gives the same
SELECT COUNT(*) AS N FROM L JOIN R ON NOT L.K <> R.K;
-- arithmetic in ON: each pair is tried, and one that is undefined makes the query so
SELECT COUNT(*) AS N FROM L JOIN R ON L.K = R.K AND L.W + 1 > 0;
SELECT COUNT(*) AS N FROM L JOIN R ON L.K = R.K AND R.W * 9999999999999999 > 0;
-- arithmetic in an item of a side is looked at before keys are
SELECT COUNT(*) AS N FROM (SELECT K * 999999999999999999 AS K FROM L) A JOIN R ON A.K = R.K;
-- three tables, the third by a column of each
CREATE TABLE S(K NUMBER, X NUMBER, N NUMBER);
INSERT INTO S VALUES (1, 100, 7), (2, 200, 8), (2, 201, 9), (3, 400, NULL);
SELECT L.K, R.W AS X, S.N FROM L JOIN R ON L.K = R.K JOIN S ON S.K = L.K AND S.X = R.W;
-- a table with itself under a key and an order
SELECT A.K, B.W AS X FROM L AS A JOIN L AS B ON A.K = B.K AND A.W <= B.W;
-- an empty side
CREATE TABLE E(K NUMBER);
SELECT COUNT(*) AS N FROM L JOIN E ON L.K = E.K;
SELECT COUNT(*) AS N FROM E JOIN L ON L.K = E.K;
-- the edits of a transaction are seen
BEGIN;
UPDATE R SET K = 5 WHERE W = 200;
INSERT INTO L VALUES (5, 'n', 50);
SELECT L.K, R.W AS X FROM L JOIN R ON L.K = R.K AND R.W >= 200;
ROLLBACK;
SELECT L.K, R.W AS X FROM L JOIN R ON L.K = R.K AND R.W >= 200;
