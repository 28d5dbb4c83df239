CREATE TABLE T(K NUMBER, V NUMBER);
CREATE TABLE C(K NUMBER, V NUMBER);
CREATE STREAM S ON TABLE T;
CREATE STREAM A ON TABLE T;
-- nothing yet
SELECT SYSTEM$STREAM_HAS_DATA('S');
INSERT INTO T VALUES (1, 10);
-- a row came
SELECT SYSTEM$STREAM_HAS_DATA('S');
-- asking moves nothing
SELECT SYSTEM$STREAM_HAS_DATA('S');
SELECT K FROM S;
-- a name as it is read elsewhere, whatever its case
SELECT SYSTEM$STREAM_HAS_DATA('s');
DELETE FROM T;
-- the row came and went
SELECT SYSTEM$STREAM_HAS_DATA('S');
-- for each stream
SELECT SYSTEM$STREAM_HAS_DATA('A');
BEGIN;
INSERT INTO T VALUES (2, 20);
-- a transaction's own changes aren't read
SELECT SYSTEM$STREAM_HAS_DATA('S');
COMMIT;
-- its commit is
SELECT SYSTEM$STREAM_HAS_DATA('S');
BEGIN;
INSERT INTO C SELECT K, V FROM S;
-- what the transaction has read it still reads
SELECT SYSTEM$STREAM_HAS_DATA('S');
COMMIT;
-- and then nothing is left
SELECT SYSTEM$STREAM_HAS_DATA('S');
-- the other stream has its own offset
SELECT SYSTEM$STREAM_HAS_DATA('A');
-- no such object
SELECT SYSTEM$STREAM_HAS_DATA('NOPE');
-- a table isn't a stream
SELECT SYSTEM$STREAM_HAS_DATA('T');
DROP TABLE T;
-- refused where a read is
SELECT SYSTEM$STREAM_HAS_DATA('S');
SELECT K FROM S;
CREATE OR REPLACE TABLE C(K NUMBER);
CREATE STREAM B ON TABLE C;
!tick 1209600029
-- still read in time
SELECT SYSTEM$STREAM_HAS_DATA('B');
!tick 2000000000
-- and then refused
SELECT SYSTEM$STREAM_HAS_DATA('B');
