CREATE TABLE T(K NUMBER, V NUMBER);
INSERT INTO T VALUES (1, 10), (1, 5), (2, NULL);
CREATE TABLE U(K NUMBER, W VARCHAR);
INSERT INTO U VALUES (1, 'a'), (3, 'b'), (NULL, 'c');
CREATE TABLE ONE(X NUMBER);
INSERT INTO ONE VALUES (1);
-- a column with its entry's name
SELECT T.K FROM T WHERE T.V = 10;
-- a lone name is the one column of that name in all entries
SELECT V, W FROM T JOIN U ON T.K = U.K;
-- a name that two entries have
SELECT K FROM T JOIN U ON TRUE;
-- an entry goes by its alias
SELECT A.K FROM T AS A;
-- an alias hides the table's name
SELECT T.K FROM T A;
-- no entry has that name
SELECT X.K FROM T;
-- a star of no entry
SELECT X.* FROM T;
-- a star of two entries
SELECT T.* FROM T JOIN T ON TRUE;
-- a star of one entry
SELECT A.* FROM U A JOIN T ON A.K = T.K;
-- a star is all columns, entry by entry
SELECT * FROM U JOIN T ON U.K = T.K;
-- an unknown table
SELECT * FROM NOPE;
-- the first unknown table in the text
SELECT * FROM N1 JOIN N2 ON TRUE;
-- an unknown table before an unknown column that stands first
SELECT ZZ FROM NOPE;
-- an unknown table before an unknown column behind it
SELECT 1 FROM NOPE WHERE ZZ = 1;
-- an unknown table in a subquery
SELECT * FROM (SELECT * FROM N1) Q JOIN N2 ON TRUE;
-- an unknown table behind a subquery
SELECT ZZ FROM (SELECT * FROM T) Q JOIN N2 ON TRUE;
-- items come before ON
SELECT ZZ FROM T JOIN U ON YY = 1;
-- ON comes before WHERE
SELECT T.K FROM T JOIN U ON YY = 1 WHERE XX = 1 GROUP BY WW;
-- WHERE comes before GROUP BY
SELECT K FROM T WHERE XX = 1 GROUP BY WW;
-- an unknown column in GROUP BY
SELECT 1 FROM T GROUP BY WW ORDER BY ZZ;
-- an unknown name in ORDER BY
SELECT K FROM T ORDER BY ZZ;
-- items come before a subquery
SELECT ZZ FROM (SELECT YY FROM T) Q;
-- a subquery comes before WHERE
SELECT 1 FROM (SELECT YY FROM T) Q WHERE ZZ = 1;
-- a subquery's columns go by its alias
SELECT Q.N FROM (SELECT K + 1 AS N FROM T WHERE V = 5) Q;
-- a subquery doesn't see the entries around it
SELECT 1 FROM T JOIN (SELECT W FROM U WHERE V = 5) Q ON TRUE;
-- a subquery's inner names aren't seen outside
SELECT U.W FROM (SELECT W FROM U) Q;
-- an ON doesn't see an entry to its right
SELECT 1 FROM T JOIN U ON C.K = 1 JOIN T C ON TRUE;
-- an entry to its right makes nothing ambiguous in an ON
SELECT 1 FROM T JOIN ONE ON V = 10 JOIN T C ON C.K = 2;
-- an ON sees all entries to its left
SELECT W FROM T JOIN ONE ON TRUE JOIN U ON T.V = 5 AND X = U.K;
-- WHERE sees all entries
SELECT T.V FROM T JOIN U ON TRUE WHERE T.K = U.K AND W = 'a';
-- a column that two entries of one name have
SELECT T.K FROM T JOIN T ON TRUE;
-- a column that one of two entries of one name has
SELECT A.W FROM T A JOIN U A ON TRUE;
-- two entries of one name
SELECT 1 AS X FROM T JOIN T ON TRUE;
-- the name that comes twice whose first place stands first
SELECT 1 FROM T JOIN U ON TRUE JOIN U ON TRUE JOIN T ON TRUE;
-- two aliases of one name
SELECT 1 FROM T A JOIN U A ON TRUE;
-- an alias that is another entry's table
SELECT 1 FROM T JOIN U T ON TRUE;
-- names that come twice in a subquery stand before its alias
SELECT 1 FROM (SELECT 1 AS O FROM U JOIN U ON TRUE) Q JOIN T Q ON TRUE;
-- an alias stands before the names in a subquery behind it
SELECT 1 FROM T Q JOIN (SELECT 1 AS O FROM U JOIN U ON TRUE) Q ON TRUE;
-- one name in two FROMs is free
SELECT COUNT(*) AS N FROM T JOIN (SELECT K FROM T) Q ON T.K = Q.K;
-- an unknown column before a name that comes twice
SELECT 1 FROM T JOIN T ON TRUE WHERE ZZ = 1;
-- a name that comes twice before a type, which stands first
SELECT 'a' + 1 FROM T JOIN T ON TRUE;
-- a name that comes twice before a type behind it
SELECT 1 FROM T JOIN T ON 'a' + 1 = 2;
-- an unknown column before a type, which stands first
SELECT 'a' + 1, ZZ FROM T;
-- an unknown column before a type behind it
SELECT ZZ, 'a' + 1 FROM T;
-- an unknown table before a name that comes twice
SELECT 1 FROM T JOIN T ON TRUE JOIN NOPE ON TRUE;
-- quoted names keep their case
SELECT "K", t."V" FROM T WHERE K = 2;
-- a quoted name in lower case is another
SELECT "k" FROM T;
-- an item's name is its alias
SELECT K AS X, V Y FROM T WHERE K = 2;
-- parentheses aren't kept
SELECT (K) FROM T WHERE V = 5;
-- a column's name without its entry's
SELECT T.K FROM T WHERE V = 5;
-- other items are named by their position
SELECT K + 1, V, 'x' FROM T WHERE V = 5;
-- a star counts as its columns
SELECT *, K + 1 FROM T WHERE V = 5;
-- a star of an entry counts as its columns
SELECT X, T.*, 0 FROM ONE JOIN T ON V = 5;
-- output names may repeat
SELECT K, K FROM T WHERE V = 5;
-- an output name may begin with METADATA$
SELECT K AS METADATA$K FROM T WHERE V = 5;
-- a subquery's name that comes twice
SELECT A FROM (SELECT 1 AS A, 2 AS A FROM ONE) Q;
-- a star over a name that comes twice
SELECT * FROM (SELECT 1 AS A, 2 AS A FROM ONE) Q;
-- a star of an entry that is unknown gives no columns
SELECT Q.A FROM (SELECT Z.*, 1 AS A FROM ONE) Q;
-- an unknown table before a name that comes twice behind it
SELECT 1 FROM NOPE JOIN T ON TRUE JOIN T ON TRUE;
-- an unknown table before a type, which stands first
SELECT 'a' + 1 FROM NOPE;
-- an unknown table before a type behind it
SELECT 1 FROM NOPE WHERE 'a' + 1 = 2;
-- an unknown column before a name that comes twice behind it
SELECT ZZ FROM T JOIN T ON TRUE;
-- a name that two entries have, in WHERE
SELECT V FROM T JOIN U ON TRUE WHERE K = 1;
-- and in GROUP BY
SELECT 1 FROM T JOIN U ON TRUE GROUP BY K;
-- an output name has no meaning in WHERE
SELECT K AS X FROM T WHERE X = 1;
-- nor in GROUP BY
SELECT K AS X FROM T GROUP BY X;
-- one name in two cores is free
SELECT T.K FROM T WHERE V = 5 UNION ALL SELECT T.K FROM T WHERE V = 10;
-- a name in quotes is printed as it is
SELECT K AS "a ""b""" FROM T WHERE V = 5;
-- an alias may have 256 bytes
SELECT K AS NNNNNNNNNNNNNNNNNNNNNNNNNNNNNNNNNNNNNNNNNNNNNNNNNNNNNNNNNNNNNNNNNNNNNNNNNNNNNNNNNNNNNNNNNNNNNNNNNNNNNNNNNNNNNNNNNNNNNNNNNNNNNNNNNNNNNNNNNNNNNNNNNNNNNNNNNNNNNNNNNNNNNNNNNNNNNNNNNNNNNNNNNNNNNNNNNNNNNNNNNNNNNNNNNNNNNNNNNNNNNNNNNNNNNNNNNNNNNNNNNNNNNNNNNNNNNNNN FROM T WHERE V = 5;
-- an entry's alias too
SELECT NNNNNNNNNNNNNNNNNNNNNNNNNNNNNNNNNNNNNNNNNNNNNNNNNNNNNNNNNNNNNNNNNNNNNNNNNNNNNNNNNNNNNNNNNNNNNNNNNNNNNNNNNNNNNNNNNNNNNNNNNNNNNNNNNNNNNNNNNNNNNNNNNNNNNNNNNNNNNNNNNNNNNNNNNNNNNNNNNNNNNNNNNNNNNNNNNNNNNNNNNNNNNNNNNNNNNNNNNNNNNNNNNNNNNNNNNNNNNNNNNNNNNNNNNNNNNNNN.K FROM T NNNNNNNNNNNNNNNNNNNNNNNNNNNNNNNNNNNNNNNNNNNNNNNNNNNNNNNNNNNNNNNNNNNNNNNNNNNNNNNNNNNNNNNNNNNNNNNNNNNNNNNNNNNNNNNNNNNNNNNNNNNNNNNNNNNNNNNNNNNNNNNNNNNNNNNNNNNNNNNNNNNNNNNNNNNNNNNNNNNNNNNNNNNNNNNNNNNNNNNNNNNNNNNNNNNNNNNNNNNNNNNNNNNNNNNNNNNNNNNNNNNNNNNNNNNNNNNN WHERE V = 5;
-- an unknown table of 256 bytes
SELECT * FROM NNNNNNNNNNNNNNNNNNNNNNNNNNNNNNNNNNNNNNNNNNNNNNNNNNNNNNNNNNNNNNNNNNNNNNNNNNNNNNNNNNNNNNNNNNNNNNNNNNNNNNNNNNNNNNNNNNNNNNNNNNNNNNNNNNNNNNNNNNNNNNNNNNNNNNNNNNNNNNNNNNNNNNNNNNNNNNNNNNNNNNNNNNNNNNNNNNNNNNNNNNNNNNNNNNNNNNNNNNNNNNNNNNNNNNNNNNNNNNNNNNNNNNNNNNNNNNNN;
-- a position is a name for the query around it
SELECT Q.COL1 FROM (SELECT K + 1 FROM T WHERE V = 5) Q;
-- also behind a star
SELECT * FROM (SELECT *, K + 1 FROM T WHERE V = 5) Q;
-- a star of three entries
SELECT T.* FROM T JOIN T ON TRUE JOIN T ON TRUE;
-- words of later rules are names
SELECT END.K FROM T AS END WHERE END.V = 5;
