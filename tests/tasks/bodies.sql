CREATE TABLE T(K NUMBER, V NUMBER);
CREATE TABLE C(K NUMBER, V NUMBER);
CREATE STREAM S ON TABLE T;
CREATE TASK A AS INSERT INTO C SELECT K, V FROM S;
INSERT INTO T VALUES (1, 10);
DROP TABLE C;
EXECUTE TASK A;
-- the target is dropped when the task is carried out
!tick
-- a failed task consumes nothing
SELECT SYSTEM$STREAM_HAS_DATA('S');
CREATE TABLE C(K NUMBER);
EXECUTE TASK A;
-- a new table of that name has other columns
!tick
CREATE OR REPLACE TABLE C(K VARCHAR, V NUMBER);
EXECUTE TASK A;
-- or columns of other types
!tick
CREATE OR REPLACE TABLE C(X NUMBER, V NUMBER);
EXECUTE TASK A;
-- one that fits takes the rows, whatever it was before
!tick
-- and the changes were moved on
SELECT SYSTEM$STREAM_HAS_DATA('S');
DROP TABLE C;
CREATE STREAM C ON TABLE T;
EXECUTE TASK A;
-- a stream has the target's name now
!tick
DROP STREAM C;
CREATE TASK C AS DELETE FROM T;
EXECUTE TASK A;
-- a task has it
!tick
DROP TASK C;
CREATE TABLE C(K NUMBER, V NUMBER);
DROP STREAM S;
CREATE TABLE S(K NUMBER, V NUMBER);
INSERT INTO S VALUES (7, 70);
EXECUTE TASK A;
-- where a table has the stream's name its rows are read
!tick
-- a column that isn't there is told at the run
CREATE TASK B AS UPDATE T SET NONE = 1;
EXECUTE TASK B;
!tick
-- a column that comes twice
CREATE TASK D AS UPDATE T SET V = 1, V = 2;
EXECUTE TASK D;
!tick
-- a number out of range
CREATE TASK E AS UPDATE T SET V = 999999999999999999 + K;
EXECUTE TASK E;
!tick
INSERT INTO C VALUES (1, 5), (1, 6);
-- an ambiguous MERGE, with its row
CREATE TASK F AS MERGE INTO T USING C ON T.K = C.K WHEN MATCHED THEN UPDATE SET V = C.V;
EXECUTE TASK F;
!tick
-- a stream whose table was replaced
CREATE STREAM Q ON TABLE S;
CREATE OR REPLACE TABLE S(K NUMBER, V NUMBER);
CREATE TASK G AS DELETE FROM T WHERE K = 2;
CREATE TASK H AS INSERT INTO C SELECT K, V FROM Q;
EXECUTE TASK H;
!tick
-- each refused statement left all as it was
SELECT * FROM T;
EXECUTE TASK G;
-- a statement that finds no row has succeeded
!tick
-- an UPDATE counts rows
CREATE TASK I AS UPDATE T SET V = V + 1;
EXECUTE TASK I;
!tick
-- a MERGE counts its three kinds
CREATE TASK J AS MERGE INTO T USING C ON T.K = C.K AND C.V = 6 WHEN MATCHED THEN DELETE WHEN NOT MATCHED THEN INSERT VALUES (C.K + 1, C.V);
EXECUTE TASK J;
!tick
SELECT * FROM T;
