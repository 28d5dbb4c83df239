CREATE TABLE T(K NUMBER, V NUMBER);
INSERT INTO T VALUES (1, 10);
-- a name, a table, a kind
CREATE STREAM A ON TABLE T APPEND_ONLY = TRUE;
-- what is there already isn't shown
SELECT * FROM A;
-- nor is there anything
SELECT SYSTEM$STREAM_HAS_DATA('A');
UPDATE T SET V = 11;
-- a changed row isn't shown
SELECT * FROM A;
SELECT SYSTEM$STREAM_HAS_DATA('A');
INSERT INTO T VALUES (2, 20), (3, 30);
-- rows that came are
SELECT * FROM A;
UPDATE T SET V = V + 1 WHERE K >= 2;
-- as they came
SELECT * FROM A;
DELETE FROM T WHERE K = 3;
-- one that went too
SELECT * FROM A;
INSERT INTO T VALUES (3, 30);
-- a row of the same values is another one
SELECT K, METADATA$ROW_ID FROM A;
-- a standard stream shows what is left
CREATE STREAM S ON TABLE T;
INSERT INTO T VALUES (4, 40);
DELETE FROM T WHERE K = 4;
SELECT * FROM S;
SELECT SYSTEM$STREAM_HAS_DATA('S');
-- this one shows the row that came and went
SELECT K, V FROM A WHERE K = 4;
BEGIN;
INSERT INTO T VALUES (5, 50);
UPDATE T SET V = 51 WHERE K = 5;
INSERT INTO T VALUES (6, 60);
DELETE FROM T WHERE K = 6;
-- of a transaction nothing is shown before its end, not to itself either
SELECT K, V FROM A WHERE K >= 5;
COMMIT;
-- and then what its version has
SELECT K, V FROM A WHERE K >= 5;
CREATE TABLE F(K NUMBER, V NUMBER);
BEGIN;
INSERT INTO F SELECT K, V FROM A;
-- it is as it was until the end
SELECT COUNT(*) AS N FROM A;
ROLLBACK;
-- and still where the end is a ROLLBACK
SELECT COUNT(*) AS N FROM A;
SELECT COUNT(*) AS N FROM F;
-- a changing statement moves it on
INSERT INTO F SELECT K, V FROM A;
SELECT * FROM A;
SELECT * FROM F;
-- what came before the offset never comes again
UPDATE T SET V = 0;
SELECT * FROM A;
-- both kinds in one statement
INSERT INTO T VALUES (7, 70);
UPDATE T SET V = V + 1 WHERE K = 7;
SELECT A.V AS FIRST, S.V AS LAST, A.METADATA$ISUPDATE AS U FROM A JOIN S ON A.METADATA$ROW_ID = S.METADATA$ROW_ID;
-- a MERGE moves it on too, and its target is as before where nothing matches
MERGE INTO F USING A ON F.K = A.K WHEN MATCHED THEN DELETE;
SELECT * FROM A;
-- of several commits each row comes as its own commit left it
BEGIN;
INSERT INTO T VALUES (8, 80);
UPDATE T SET V = 88 WHERE K = 8;
COMMIT;
INSERT INTO T VALUES (9, 90);
UPDATE T SET V = V + 1 WHERE K >= 8;
SELECT K, V FROM A;
-- a table that is replaced ends it
CREATE OR REPLACE TABLE T(K NUMBER, V NUMBER);
SELECT * FROM A;
DROP STREAM A;
-- its name is free
CREATE STREAM A ON TABLE T APPEND_ONLY = TRUE;
INSERT INTO T SELECT K, V FROM F;
SELECT COUNT(*) AS N FROM A;
-- a stream of appended rows is read no more where it is stale
!tick 1209600100
SELECT COUNT(*) AS N FROM A;
