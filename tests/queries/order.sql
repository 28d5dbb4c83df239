CREATE TABLE T(K NUMBER, V NUMBER);
INSERT INTO T VALUES (1, 10), (1, 5), (2, NULL);
CREATE TABLE U(K NUMBER, W VARCHAR);
INSERT INTO U VALUES (1, 'a'), (3, 'b'), (NULL, 'c');
-- by a name
SELECT K, V FROM T ORDER BY V;
-- NULL first with DESC
SELECT K, V FROM T ORDER BY V DESC;
-- ASC is as nothing
SELECT V FROM T ORDER BY V ASC;
-- by a position from 1
SELECT K, V FROM T ORDER BY 2 DESC;
-- by the first position
SELECT K, V FROM T ORDER BY 1 DESC;
-- position 0
SELECT K FROM T ORDER BY 0;
-- a position behind the last
SELECT K, V FROM T ORDER BY 3;
-- a position without its zeros
SELECT K FROM T ORDER BY 007;
-- output names alone are seen
SELECT K AS X FROM T ORDER BY K;
-- a name that two output columns have
SELECT K, K FROM T ORDER BY K;
-- by an alias
SELECT K, V AS W FROM T ORDER BY W, K;
-- rows of equal keys stand in the row order, also after DESC
SELECT K, V FROM T ORDER BY K DESC;
-- a second key
SELECT K, V FROM T ORDER BY K DESC, V DESC;
-- the first key that fails
SELECT K FROM T ORDER BY K, ZZ, 9;
-- without keys the row order
SELECT V, K FROM T;
-- over a UNION ALL
SELECT K FROM T UNION ALL SELECT K FROM T ORDER BY 1 DESC;
-- over groups
SELECT K, COUNT(*) AS N FROM T GROUP BY K ORDER BY N, K;
-- texts by their bytes
SELECT W FROM U ORDER BY W DESC;
-- FALSE before TRUE
SELECT K = 1 AS Y FROM T ORDER BY Y;
-- numbers by size
SELECT K - 2 AS D FROM U ORDER BY D;
-- by the name of an item without one
SELECT K + 1 FROM T ORDER BY COL1 DESC;
-- by a name of the first core's
SELECT K AS A FROM T UNION ALL SELECT V AS B FROM T ORDER BY A DESC;
-- not by one of a later core's
SELECT K AS A FROM T UNION ALL SELECT V AS B FROM T ORDER BY B;
-- by a name in quotes
SELECT K AS "k", V AS K FROM T ORDER BY "k" DESC, K;
-- an entry's name stands in no key
SELECT K FROM T ORDER BY T.K;
-- an unknown position before a type, which stands first
SELECT 'a' + 1 FROM T ORDER BY 2;
-- a key that comes twice
SELECT K, V FROM T ORDER BY K, K DESC, V DESC;
