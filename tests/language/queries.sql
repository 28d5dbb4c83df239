CREATE TABLE T(A NUMBER, B NUMBER);
INSERT INTO T VALUES (1, 2), (3, 1);
CREATE TABLE U(A NUMBER, D NUMBER);
INSERT INTO U VALUES (3, 7);
CREATE TABLE W(ASC NUMBER, DESC NUMBER, SUM NUMBER, SYSTEM$STREAM_HAS_DATA NUMBER);
INSERT INTO W VALUES (1, 2, 0, 5), (2, 1, 0, 6), (2, 3, 0, 7);
CREATE STREAM S ON TABLE T;
-- the least
select*from t;
-- stars, columns and aliases
SELECT t.*, *, a, b c, t.a x, B AS e FROM t WHERE A = 1;
-- an alias of a table
SELECT v.a FROM t v WHERE V.B = 1;
-- one behind AS
SELECT v.a FROM t AS v WHERE V.B = 1;
-- a quoted alias, with its star
SELECT "from".* FROM t AS "from" WHERE "from".b = 1;
-- a join
SELECT t.b, d FROM t JOIN u ON t.a = u.a;
-- joins
SELECT x.b, d, y.asc FROM t x INNER JOIN u ON TRUE JOIN w AS y ON y.desc = x.a;
-- every part of a core
SELECT x.b n, COUNT(*) FROM t x JOIN w v ON x.b = v.desc WHERE v.sum = 0 GROUP BY x.b;
-- cores
SELECT a FROM t WHERE b = 1 UNION ALL SELECT d FROM u UNION ALL SELECT asc FROM w WHERE asc = 1;
-- a subquery
SELECT q.a FROM (SELECT a FROM t UNION ALL SELECT d FROM u) AS q;
-- one that is joined
SELECT t.a, q.d FROM t JOIN (SELECT d FROM u) q ON TRUE;
-- two groups
SELECT COUNT(*) FROM w GROUP BY asc, sum;
-- a key
SELECT a, b FROM t ORDER BY b;
-- ASC says nothing more
SELECT a, b FROM t ORDER BY b ASC;
-- DESC turns it
SELECT a, b FROM t ORDER BY a DESC;
-- keys by place and name
SELECT asc, desc FROM w ORDER BY 1 DESC, "DESC" ASC;
-- ASC and DESC as columns
SELECT asc, desc FROM w ORDER BY ASC DESC, DESC ASC;
-- DESC as the last key
SELECT asc, desc FROM w ORDER BY DESC;
-- SUM as a key
SELECT sum FROM w WHERE asc = 1 ORDER BY SUM;
-- a key behind a group
SELECT asc FROM w GROUP BY asc ORDER BY asc DESC;
-- a key behind cores
SELECT a FROM t UNION ALL SELECT d FROM u ORDER BY 1 DESC;
-- a stream is asked for
SELECT SYSTEM$STREAM_HAS_DATA('S');
-- in small letters, with blanks
select system$stream_has_data ( 's' );
-- by a quoted name
SELECT SYSTEM$STREAM_HAS_DATA('"S"');
-- which keeps its case
SELECT SYSTEM$STREAM_HAS_DATA('"s"');
-- with a quote in it
SELECT SYSTEM$STREAM_HAS_DATA('"a""b"');
-- by a reserved word in quotes
SELECT SYSTEM$STREAM_HAS_DATA('"select"');
-- by a word that begins a call elsewhere
SELECT SYSTEM$STREAM_HAS_DATA('sum');
-- by a word of every kind of character
SELECT SYSTEM$STREAM_HAS_DATA('_a1$');
-- without a parenthesis it is a column
SELECT SYSTEM$STREAM_HAS_DATA FROM w WHERE asc = 1;
-- also before others
SELECT SYSTEM$STREAM_HAS_DATA, asc FROM w WHERE asc = 1;
-- with an alias
SELECT SYSTEM$STREAM_HAS_DATA a FROM w WHERE asc = 1;
-- in quotes
SELECT "SYSTEM$STREAM_HAS_DATA" FROM w WHERE asc = 1;
-- or an entry
SELECT SYSTEM$STREAM_HAS_DATA.* FROM t;
-- no items
SELECT;
SELECT FROM t;
-- no source
SELECT *;
SELECT a;
SELECT * FROM;
-- a comma at the end
SELECT a, FROM t;
SELECT a FROM t ORDER BY a,;
SELECT a FROM t GROUP BY a,;
-- a reserved word as a name
SELECT a AS from FROM t;
SELECT a FROM t AS on;
SELECT a FROM order;
SELECT a FROM t full;
-- two aliases
SELECT a b c FROM t;
SELECT a b.c FROM t;
SELECT a FROM t t t;
-- an alias of a star
SELECT * a FROM t;
SELECT t.* a FROM t;
-- a star behind a number
SELECT 1 . * FROM t;
-- two sources
SELECT a FROM t, u;
-- other joins
SELECT a FROM t INNER u ON TRUE;
SELECT a FROM t JOIN u;
SELECT a FROM t LEFT JOIN u ON TRUE;
SELECT a FROM t CROSS JOIN u;
SELECT a FROM t NATURAL JOIN u;
SELECT a FROM t JOIN u USING (a);
-- words that stand in no rule
SELECT DISTINCT a FROM t;
SELECT a FROM t HAVING a;
SELECT a FROM t LIMIT 1;
-- WHERE without a condition, or twice
SELECT a FROM t WHERE;
SELECT a FROM t WHERE TRUE WHERE TRUE;
-- GROUP BY before WHERE, or cut
SELECT a FROM t GROUP BY a WHERE TRUE;
SELECT a FROM t GROUP a;
SELECT a FROM t GROUP BY;
-- UNION without ALL, or cut
SELECT a FROM t UNION SELECT b FROM t;
SELECT a FROM t UNION ALL;
-- a subquery without an alias
SELECT a FROM (SELECT a FROM t);
SELECT q.a FROM t JOIN (SELECT a FROM t) ON TRUE;
-- a name in parentheses
SELECT a FROM (t) u;
-- an open subquery
SELECT a FROM (SELECT a FROM t q;
-- ORDER BY in a subquery
SELECT a FROM (SELECT a FROM t ORDER BY a) q;
-- a query in parentheses
(SELECT a FROM t);
SELECT a FROM t);
-- something behind it
SELECT a FROM t 1;
SELECT a FROM t 'a';
-- ORDER BY, cut
SELECT a FROM t ORDER a;
SELECT a FROM t ORDER BY;
-- keys are names and places
SELECT a FROM t ORDER BY -1;
SELECT a FROM t ORDER BY a + 1;
SELECT a FROM t ORDER BY t.a;
SELECT a FROM t ORDER BY 'a';
SELECT a FROM t ORDER BY a ASC DESC;
-- a core behind ORDER BY
SELECT a FROM t ORDER BY a UNION ALL SELECT b FROM t;
-- a stream is asked for by a text
SELECT SYSTEM$STREAM_HAS_DATA(s);
SELECT SYSTEM$STREAM_HAS_DATA();
SELECT SYSTEM$STREAM_HAS_DATA('s';
SELECT SYSTEM$STREAM_HAS_DATA(1);
SELECT SYSTEM$STREAM_HAS_DATA("s");
-- whose name is one word or one quoted name
SELECT SYSTEM$STREAM_HAS_DATA('');
SELECT SYSTEM$STREAM_HAS_DATA('a.b');
SELECT SYSTEM$STREAM_HAS_DATA('from');
SELECT SYSTEM$STREAM_HAS_DATA('s ');
SELECT SYSTEM$STREAM_HAS_DATA(' s');
SELECT SYSTEM$STREAM_HAS_DATA('s t');
SELECT SYSTEM$STREAM_HAS_DATA('7');
SELECT SYSTEM$STREAM_HAS_DATA('s--');
SELECT SYSTEM$STREAM_HAS_DATA('"s');
SELECT SYSTEM$STREAM_HAS_DATA('s;');
-- with nothing beside it
SELECT SYSTEM$STREAM_HAS_DATA('s') FROM t;
SELECT SYSTEM$STREAM_HAS_DATA('s'), 1;
SELECT SYSTEM$STREAM_HAS_DATA('s') ORDER BY 1;
SELECT SYSTEM$STREAM_HAS_DATA('s') UNION ALL SELECT a FROM t;
-- by that one word
SELECT SYSTEM$HAS_DATA('s');
SELECT "SYSTEM$STREAM_HAS_DATA"('s');
