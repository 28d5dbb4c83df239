CREATE TABLE T(K NUMBER, V NUMBER);
CREATE TABLE U(K NUMBER, W VARCHAR);
CREATE TABLE TWO(X NUMBER);
CREATE TABLE C(C1 NUMBER, C2 NUMBER, C3 NUMBER, C4 NUMBER, C5 NUMBER, C6 NUMBER, C7 NUMBER, C8 NUMBER, C9 NUMBER, C10 NUMBER, C11 NUMBER, C12 NUMBER, C13 NUMBER, C14 NUMBER, C15 NUMBER, C16 NUMBER, C17 NUMBER, C18 NUMBER, C19 NUMBER, C20 NUMBER, C21 NUMBER, C22 NUMBER, C23 NUMBER, C24 NUMBER, C25 NUMBER, C26 NUMBER, C27 NUMBER, C28 NUMBER, C29 NUMBER, C30 NUMBER, C31 NUMBER, C32 NUMBER, C33 NUMBER, C34 NUMBER, C35 NUMBER, C36 NUMBER, C37 NUMBER, C38 NUMBER, C39 NUMBER, C40 NUMBER, C41 NUMBER, C42 NUMBER, C43 NUMBER, C44 NUMBER, C45 NUMBER, C46 NUMBER, C47 NUMBER, C48 NUMBER, C49 NUMBER, C50 NUMBER, C51 NUMBER, C52 NUMBER, C53 NUMBER, C54 NUMBER, C55 NUMBER, C56 NUMBER, C57 NUMBER, C58 NUMBER, C59 NUMBER, C60 NUMBER, C61 NUMBER, C62 NUMBER, C63 NUMBER, C64 NUMBER);
INSERT INTO T VALUES (1, 999999999999999999), (2, 2);
INSERT INTO U VALUES (1, 'a');
INSERT INTO TWO VALUES (1), (1);
INSERT INTO C VALUES (1, 1, 1, 1, 1, 1, 1, 1, 1, 1, 1, 1, 1, 1, 1, 1, 1, 1, 1, 1, 1, 1, 1, 1, 1, 1, 1, 1, 1, 1, 1, 1, 1, 1, 1, 1, 1, 1, 1, 1, 1, 1, 1, 1, 1, 1, 1, 1, 1, 1, 1, 1, 1, 1, 1, 1, 1, 1, 1, 1, 1, 1, 1, 1);
-- an unknown target before a column behind it
INSERT INTO NOPE (ZZ) VALUES (1);
-- an unknown source before a column that stands first
INSERT INTO T (ZZ) SELECT K FROM NOPE;
-- of two unknown tables the first
INSERT INTO N1 SELECT * FROM N2;
-- the list before the query
INSERT INTO T (ZZ) SELECT YY FROM T;
-- an unknown column before a name that comes twice, which stands first
INSERT INTO T (K, K) SELECT YY, 1 FROM T;
-- an unknown column before a name that comes twice behind it
INSERT INTO T (ZZ, K, K) VALUES (1, 2, 3);
-- an unknown column that comes twice
INSERT INTO T (ZZ, ZZ) VALUES (1, 2);
-- a name that comes twice before a type behind it
INSERT INTO T (K, K) VALUES ('a', 1);
-- a column that comes twice before an entry that does
INSERT INTO T (V, V) SELECT 1, 2 FROM U JOIN U ON TRUE;
-- an entry that comes twice before a column too few
INSERT INTO T SELECT 1 FROM U JOIN U ON TRUE;
-- an unknown column before a type, which stands first
INSERT INTO T VALUES ('a', 1), (1, ZZ);
-- a type before a value of 19 digits, which stands first
INSERT INTO T VALUES (999999999999999999 + 1, 'a');
-- a type before a value of 19 digits behind it
INSERT INTO T VALUES ('a', 999999999999999999 + 1);
-- an unknown target before columns behind it
UPDATE NOPE SET ZZ = 1, ZZ = 2;
-- the column that is set before its value
UPDATE T SET ZZ = YY;
-- a value before the next column that is set
UPDATE T SET K = YY, ZZ = 1;
-- SET before WHERE
UPDATE T SET K = YY WHERE XX = 1;
-- an unknown column before a column that is set twice, which stands first
UPDATE T SET K = 1, K = 2 WHERE ZZ = 1;
-- an unknown column before a column that is set twice behind it
UPDATE T SET ZZ = 1, K = 1, K = 2;
-- a column that is set twice before a type, which stands first
UPDATE T SET V = 'a', K = 1, K = 2;
-- a column that is set twice before a type behind it
UPDATE T SET K = 1, K = 2 WHERE V;
-- an unknown column before a type, which stands first
UPDATE T SET K = 'a' WHERE ZZ = 1;
-- an unknown column before a type behind it
UPDATE T SET ZZ = 1 WHERE V = 'a';
-- a type before a WHERE of 19 digits behind it
UPDATE T SET K = 'a' WHERE V + 1 > 0;
-- a type before a part of 19 digits, which stands first
UPDATE T SET V = V + 1 WHERE K = 'a';
-- an unknown table before columns and types
DELETE FROM NOPE WHERE ZZ = 'a' + 1;
-- an unknown column before a type, which stands first
DELETE FROM T WHERE K + 'a' = ZZ;
-- a type before a part of 19 digits, which stands first
DELETE FROM T WHERE V + 1 > 0 AND K = 'a';
-- of an unknown target and source the target
MERGE INTO N1 USING N2 ON TRUE WHEN MATCHED THEN DELETE;
-- an unknown source before a column behind it
MERGE INTO T USING NOPE ON T.ZZ = 1 WHEN MATCHED THEN DELETE;
-- a source that is a query before ON
MERGE INTO T USING (SELECT YY FROM U) S ON ZZ = 1 WHEN MATCHED THEN DELETE;
-- ON before the clauses
MERGE INTO T USING U ON ZZ = 1 WHEN MATCHED AND YY = 1 THEN DELETE;
-- a condition before SET
MERGE INTO T USING U ON TRUE WHEN MATCHED AND ZZ = 1 THEN UPDATE SET YY = 1;
-- clauses in the order of the text
MERGE INTO T USING U ON TRUE WHEN NOT MATCHED THEN INSERT VALUES (ZZ, 1) WHEN MATCHED THEN UPDATE SET YY = 1;
-- a condition before the list
MERGE INTO T USING U ON TRUE WHEN NOT MATCHED AND XX = 1 THEN INSERT (ZZ) VALUES (YY);
-- the list before VALUES
MERGE INTO T USING U ON TRUE WHEN NOT MATCHED THEN INSERT (ZZ) VALUES (YY);
-- an unknown column before equal entries, which stand first
MERGE INTO T USING T ON ZZ = 1 WHEN MATCHED THEN DELETE;
-- a column that both of two equal entries have
MERGE INTO T USING T ON T.K = 1 WHEN MATCHED THEN DELETE;
-- equal entries before an entry that comes twice in the source
MERGE INTO T A USING (SELECT 1 AS X FROM U JOIN U ON TRUE) A ON TRUE WHEN MATCHED THEN DELETE;
-- an entry that comes twice in the source before a column that is set twice
MERGE INTO T USING (SELECT 1 AS X FROM U JOIN U ON TRUE) A ON TRUE WHEN MATCHED THEN UPDATE SET V = 1, V = 2;
-- equal entries before a column that is set twice
MERGE INTO T USING T ON TRUE WHEN MATCHED THEN UPDATE SET V = 1, V = 2;
-- equal entries before a type
MERGE INTO T USING T ON 1 WHEN MATCHED THEN DELETE;
-- 256 columns of a source
MERGE INTO T USING (SELECT *, *, *, * FROM C) S ON FALSE WHEN MATCHED THEN DELETE;
-- 257 columns of a source
MERGE INTO T USING (SELECT *, *, *, *, 1 FROM C) S ON FALSE WHEN MATCHED THEN DELETE;
-- 257 columns of a query in the source
MERGE INTO T USING (SELECT 1 AS K FROM (SELECT *, *, *, *, 1 FROM C) P) S ON FALSE WHEN MATCHED THEN DELETE;
-- a type before 257 columns, which stand first
MERGE INTO T USING (SELECT *, *, *, *, 1 FROM C) S ON 1 WHEN MATCHED THEN DELETE;
-- 257 columns before an ON of 19 digits
MERGE INTO T USING (SELECT *, *, *, *, 1 FROM C) S ON T.V + 1 > 0 WHEN MATCHED THEN DELETE;
-- 257 columns in a query of INSERT
INSERT INTO T SELECT 1, 2 FROM (SELECT *, *, *, *, 1 FROM C) Q;
-- 256 columns there
INSERT INTO T SELECT 3, 3 FROM (SELECT *, *, *, * FROM C) Q;
-- 257 columns before an item of 19 digits
INSERT INTO T SELECT 1, 999999999999999999 + 1 FROM (SELECT *, *, *, *, 1 FROM C) Q;
-- a type before 257 columns behind it
INSERT INTO T SELECT 1, 'a' FROM (SELECT *, *, *, *, 1 FROM C) Q;
-- 257 columns for two
INSERT INTO T SELECT *, *, *, *, 1 FROM C;
-- 19 digits on the first row, before an ambiguous one
MERGE INTO T USING TWO ON TRUE WHEN MATCHED AND T.K = 2 THEN DELETE WHEN MATCHED AND T.V + 1 > 0 THEN DELETE;
UPDATE T SET V = 0 WHERE K = 1;
INSERT INTO T VALUES (4, 999999999999999999);
-- 19 digits on the last row, behind an ambiguous one
MERGE INTO T USING TWO ON TRUE WHEN MATCHED AND T.K = 2 THEN DELETE WHEN MATCHED AND T.V + 1 > 5 THEN DELETE;
-- an ambiguous row where all is defined
MERGE INTO T USING TWO ON TRUE WHEN MATCHED AND T.K >= 2 THEN DELETE;
-- nothing was changed by what was refused
SELECT * FROM T;
-- an unknown target before a list with a column twice
INSERT INTO NOPE (K, K) VALUES (1, 2);
-- an unknown source before it, which stands first
INSERT INTO T (K, K) SELECT 1, 2 FROM NOPE;
-- an unknown target before a type behind it
INSERT INTO NOPE VALUES ('a' + 1);
-- an unknown source before a type, which stands first
INSERT INTO T SELECT 'a' + 1, 1 FROM NOPE;
-- an unknown column before a type behind it
INSERT INTO T VALUES (ZZ, 1), ('a', 1);
-- an entry that comes twice before a type, which stands first
INSERT INTO T SELECT 'a' + 1, 2 FROM U JOIN U ON TRUE;
-- an unknown column of a query before an entry that comes twice behind it
INSERT INTO T SELECT ZZ, 2 FROM U JOIN U ON TRUE;
-- an unknown target before a type
UPDATE NOPE SET K = 'a' + 1;
-- an unknown column before a type behind it
DELETE FROM T WHERE ZZ = K + 'a';
-- an unknown source before a column, which stands first
MERGE INTO T USING (SELECT ZZ FROM NOPE) S ON TRUE WHEN MATCHED THEN DELETE;
-- an unknown source before a column that is set twice
MERGE INTO T USING NOPE ON TRUE WHEN MATCHED THEN UPDATE SET V = 1, V = 2;
-- an unknown source before an entry that comes twice, which stands first
MERGE INTO T USING (SELECT 1 AS X FROM U JOIN U ON TRUE JOIN NOPE ON TRUE) S ON TRUE WHEN MATCHED THEN DELETE;
-- an unknown source before a type behind it
MERGE INTO T USING NOPE ON 1 WHEN MATCHED THEN DELETE;
-- an unknown source before a type, which stands first
MERGE INTO T USING (SELECT 'a' + 1 AS X FROM NOPE) S ON TRUE WHEN MATCHED THEN DELETE;
-- an unknown column before a column that is set twice behind it
MERGE INTO T USING U ON ZZ = 1 WHEN MATCHED THEN UPDATE SET V = 1, V = 2;
-- an unknown column before a column that is set twice, which stands first
MERGE INTO T USING U ON TRUE WHEN MATCHED THEN UPDATE SET V = 1, V = 2 WHEN NOT MATCHED AND ZZ = 1 THEN INSERT VALUES (1, 1);
-- an unknown column before a type behind it
MERGE INTO T USING U ON ZZ = 'a' + 1 WHEN MATCHED THEN DELETE;
-- an unknown column before a type, which stands first
MERGE INTO T USING U ON 'a' + 1 = ZZ WHEN MATCHED THEN DELETE;
-- a column that is set twice before a type, which stands first
MERGE INTO T USING U ON 1 WHEN MATCHED THEN UPDATE SET V = 1, V = 2;
-- a column that is set twice before a type behind it
MERGE INTO T USING U ON TRUE WHEN MATCHED THEN UPDATE SET V = 1, V = 2 WHEN NOT MATCHED AND 1 THEN INSERT VALUES (1, 1);
-- a type before an ON of 19 digits, which stands first
MERGE INTO T USING U ON T.V + 1 > 0 WHEN MATCHED THEN UPDATE SET V = 'a';
