CREATE TABLE ONE(X NUMBER);
INSERT INTO ONE VALUES (1);
CREATE TABLE T(K NUMBER, V NUMBER);
INSERT INTO T VALUES (1, 5), (2, NULL);
CREATE TABLE U(K NUMBER, W VARCHAR);
INSERT INTO U VALUES (1, 'a'), (NULL, 'c');
-- arithmetic takes numbers
SELECT K + V FROM T WHERE V = 5;
-- no sum with a text
SELECT W + 1 FROM U;
-- no difference with a truth value
SELECT 1 - TRUE FROM ONE;
-- no product with a text
SELECT 2 * 'a' FROM ONE;
-- no minus sign before a text
SELECT - W FROM U;
-- no comparison of two types
SELECT K = W FROM U;
-- no comparison of a number and a truth value
SELECT K < TRUE FROM U;
-- AND takes truth values
SELECT K AND TRUE FROM T;
-- OR takes truth values
SELECT TRUE OR 'a' FROM T;
-- NOT takes a truth value
SELECT NOT K FROM T;
-- WHERE takes a truth value
SELECT K FROM T WHERE K;
-- ON takes a truth value
SELECT T.K FROM T JOIN U ON U.K;
-- IN has one type
SELECT 1 IN (1, 'a') FROM ONE;
-- BETWEEN has one type below
SELECT 1 BETWEEN 'a' AND 2 FROM ONE;
-- BETWEEN has one type above
SELECT 1 BETWEEN 0 AND 'a' FROM ONE;
-- NULL + 1 is a number
SELECT (NULL + 1) = 'a' FROM ONE;
-- - NULL is a number
SELECT (- NULL) = 'a' FROM ONE;
-- a comparison is a truth value
SELECT (K = 1) + 1 FROM T;
-- SUM takes numbers
SELECT SUM(W) FROM U;
-- a SUM is a number
SELECT SUM(K) = 'a' FROM T;
-- a COUNT is a number
SELECT COUNT(*) = 'a' FROM T;
-- no call in WHERE
SELECT K FROM T WHERE SUM(K) = 1;
-- no call in ON
SELECT 1 FROM T JOIN U ON COUNT(*) = 1;
-- no call in GROUP BY
SELECT 1 FROM T GROUP BY SUM(K);
-- no call in a call
SELECT SUM(COUNT(*)) FROM T;
-- no star beside a call
SELECT *, COUNT(*) FROM T;
-- no star of an entry beside a call
SELECT T.*, COUNT(*) FROM T;
-- no star with GROUP BY
SELECT * FROM T GROUP BY K;
-- a column outside of calls
SELECT K, COUNT(*) FROM T;
-- a column outside of the keys
SELECT V FROM T GROUP BY K;
-- a grouped star in a subquery still has its columns
SELECT K FROM (SELECT *, COUNT(*) AS N FROM T) Q;
-- cores with other numbers of columns
SELECT K FROM T UNION ALL SELECT K, V FROM T;
-- cores with more columns first
SELECT K, V FROM T UNION ALL SELECT K FROM T;
-- cores with other types
SELECT K FROM T UNION ALL SELECT W FROM U;
-- the third core's type
SELECT NULL AS A FROM ONE UNION ALL SELECT 1 FROM ONE UNION ALL SELECT 'a' FROM ONE;
-- a column that is NULL everywhere is a text outside
SELECT X + 1 FROM (SELECT NULL AS X FROM ONE) Q;
-- WHERE NULL is typed
SELECT K FROM T WHERE NULL;
-- NULL fits a sum
SELECT NULL + 1, - NULL FROM ONE;
-- NULL fits each type
SELECT NULL = 1, NULL = 'a', NULL = TRUE FROM ONE;
-- IN types its items against the left side alone
SELECT NULL IN (1, 'a') FROM ONE;
-- BETWEEN types its bounds against the left side alone
SELECT NULL BETWEEN 0 AND 'a' FROM ONE;
-- truth values compare
SELECT TRUE > FALSE, FALSE >= TRUE FROM ONE;
-- COUNT takes anything
SELECT COUNT(W), COUNT(W = 'a'), COUNT(NULL) FROM U;
-- SUM(NULL) is typed
SELECT SUM(NULL) FROM T;
-- NULL in a core fits the others
SELECT NULL AS A FROM ONE UNION ALL SELECT 1 FROM ONE;
-- a column that is NULL everywhere compares with texts
SELECT X = 'a' FROM (SELECT NULL AS X FROM ONE) Q;
-- a type that a later core tells
SELECT X + 1 FROM (SELECT NULL AS X FROM ONE UNION ALL SELECT 2 FROM ONE) Q;
-- AND has a truth value behind it
SELECT TRUE AND 1 FROM ONE;
-- OR has one before it
SELECT 1 OR TRUE FROM ONE;
-- NOT IN has one type
SELECT 1 NOT IN ('a') FROM ONE;
-- NOT BETWEEN has one type
SELECT 1 NOT BETWEEN 0 AND 'a' FROM ONE;
-- an IN is a truth value
SELECT (1 IN (1)) + 1 FROM ONE;
-- IS NULL is a truth value
SELECT (K IS NULL) + 1 FROM T;
-- IS NULL takes anything
SELECT W IS NULL, (K = 1) IS NULL, K IS NOT NULL FROM U WHERE W = 'a';
-- NULL is a truth value too
SELECT NULL AND TRUE, NULL OR TRUE, NOT NULL FROM ONE;
-- a call in a subquery is none of the core around it
SELECT X, N FROM ONE JOIN (SELECT COUNT(*) AS N FROM T) Q ON TRUE;
-- a call in one core is none of another
SELECT K FROM T WHERE V = 5 UNION ALL SELECT COUNT(*) FROM T;
-- a column beside a call in one item
SELECT K + COUNT(*) FROM T;
-- ORDER BY takes no call
SELECT K FROM T ORDER BY COUNT(*);
