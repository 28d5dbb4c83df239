CREATE TABLE T(K NUMBER, V NUMBER);
INSERT INTO T VALUES (1, 10), (1, 5), (2, NULL);
CREATE TABLE E(K NUMBER);
CREATE TABLE L(X NUMBER);
INSERT INTO L VALUES (999999999999999999), (1), (-1);
-- counts multiply in a join, and calls go by key
SELECT A.K, COUNT(*) AS N, COUNT(A.V) AS M, SUM(A.V) AS S FROM T AS A JOIN T AS B ON A.K = B.K WHERE A.V IS NULL OR A.V > 0 GROUP BY A.K;
-- calls over all rows
SELECT COUNT(*), COUNT(V), SUM(V), SUM(K) FROM T;
-- calls by key
SELECT K, SUM(V), COUNT(V), COUNT(*) FROM T GROUP BY K;
-- an item that is a key
SELECT K + 1 FROM T GROUP BY K + 1;
-- an item over a key
SELECT K + 1 FROM T GROUP BY K;
-- a column inside a key alone
SELECT K FROM T GROUP BY K + 1;
-- K + 1 and 1 + K differ
SELECT 1 + K FROM T GROUP BY K + 1;
-- K is T.K
SELECT T.K FROM T GROUP BY K;
-- IN is the OR of its equalities
SELECT K IN (1, 2) FROM T GROUP BY K = 1 OR K = 2;
-- each equality of an IN may be a key
SELECT K IN (1, 2) AS Y FROM T GROUP BY K = 1, K = 2;
-- BETWEEN is the AND of its bounds
SELECT K BETWEEN 1 AND 2 FROM T GROUP BY K >= 1 AND K <= 2;
-- IS NOT NULL is NOT of IS NULL
SELECT K IS NOT NULL FROM T GROUP BY NOT K IS NULL;
-- both signs of unequal are one
SELECT K != 1 FROM T GROUP BY K <> 1;
-- the outermost part that is a key
SELECT K + V FROM T GROUP BY K + V, K;
-- a number in GROUP BY is no position
SELECT COUNT(*) FROM T GROUP BY 1;
-- no row, no group
SELECT COUNT(*) FROM E GROUP BY 1;
-- without keys there is one group
SELECT COUNT(*), COUNT(K), SUM(K) FROM E;
-- without keys, also where no row is left
SELECT COUNT(*) FROM T WHERE FALSE;
-- NULL keys are one key
SELECT V, COUNT(*) AS N FROM (SELECT NULL AS V FROM T) Q GROUP BY V;
-- two keys
SELECT K, V FROM T GROUP BY V, K;
-- equal keys are one group
SELECT K FROM T GROUP BY K, K;
-- items that say the same stand twice
SELECT K, K, COUNT(*) FROM T GROUP BY K;
-- a constant beside a call
SELECT 5, COUNT(*) FROM T;
-- groups without a call
SELECT 'x' AS C FROM T GROUP BY K;
-- a call in an expression
SELECT SUM(V) + COUNT(*) * 2 FROM T;
-- a call on the left of BETWEEN
SELECT SUM(V) BETWEEN 1 AND 20, SUM(V) IN (1, 15) FROM T;
-- an expression in a call
SELECT SUM(K * 2 + 1) FROM T;
-- a call over a subquery of groups
SELECT SUM(N) AS S FROM (SELECT COUNT(*) AS N FROM T GROUP BY K) Q;
-- the limit is looked at over all rows of a group
SELECT SUM(X) FROM L;
-- a sum of 19 digits
SELECT SUM(X) FROM L WHERE X > 0;
-- a sum of one group of 19 digits
SELECT X < 0, SUM(X) FROM L GROUP BY X < 0;
-- an argument of 19 digits
SELECT COUNT(X + 1) FROM L;
-- a key of 19 digits
SELECT COUNT(*) FROM L GROUP BY X + 1;
-- WHERE goes before the groups
SELECT COUNT(X + 1) FROM L WHERE X < 5;
-- a union of groups
SELECT COUNT(*) AS N FROM T UNION ALL SELECT SUM(V) FROM T GROUP BY K;
-- a call beside a key in one item
SELECT K + COUNT(*) FROM T GROUP BY K;
-- a column in a call needs no key
SELECT SUM(V) FROM T GROUP BY K;
-- NOT IN is NOT of IN
SELECT K NOT IN (1, 2) FROM T GROUP BY K IN (1, 2);
-- NOT BETWEEN is NOT of BETWEEN
SELECT K NOT BETWEEN 2 AND 3 FROM T GROUP BY K BETWEEN 2 AND 3;
-- an item that says the same with parentheses
SELECT (K + (1)) FROM T GROUP BY K + 1;
-- a constant is a key as any other
SELECT 1 + V FROM T GROUP BY 1, V;
-- a key that is no item
SELECT COUNT(*) AS N FROM T GROUP BY K, V;
-- COUNT of what is NULL on every row
SELECT COUNT(NULL), SUM(NULL) FROM T;
-- equal rows of a group count each
SELECT COUNT(X), SUM(X) FROM (SELECT 1 AS X FROM T) Q;
-- calls in all places of a BETWEEN
SELECT COUNT(*) BETWEEN COUNT(V) AND COUNT(*), COUNT(V) BETWEEN SUM(K) AND COUNT(*) FROM T;
-- calls in all places of an IN
SELECT 3 IN (COUNT(V), SUM(K), COUNT(*)), SUM(V) NOT IN (COUNT(*), SUM(K) + 11) FROM T;
-- FALSE AND spares no argument of a call
SELECT FALSE AND SUM(K * 999999999999999999) > 0 FROM T;
-- an IN in another order is another scalar
SELECT K IN (2, 1) FROM T GROUP BY K IN (1, 2);
-- so is one of other numbers
SELECT K IN (1, 3) FROM T GROUP BY K IN (1, 2);
-- a key below IS NULL
SELECT (K + 1) IS NULL FROM T GROUP BY K + 1;
-- the other order of a sum is one over its key
SELECT 1 + K FROM T GROUP BY K, K + 1;
-- a key beside a call in a comparison
SELECT K = COUNT(*) FROM T GROUP BY K;
