CREATE TABLE T(K NUMBER);
CREATE TABLE C(K NUMBER);
CREATE STREAM S ON TABLE T;
CREATE TASK A AS INSERT INTO C SELECT K FROM S;
INSERT INTO T VALUES (1), (2);
EXECUTE TASK A;
-- a transaction holds the target
BEGIN;
INSERT INTO C VALUES (0);
-- so the task waits
!tick
!session 2
-- and doesn't wait for rows of the stream's table
BEGIN;
DELETE FROM T;
!session 1
ROLLBACK;
!tick
!session 2
COMMIT;
SELECT * FROM C;
-- a stream that a transaction read is held too
EXECUTE TASK A;
BEGIN;
INSERT INTO C SELECT K FROM S;
!session 1
!tick
!session 2
COMMIT;
-- then it has nothing more to show
!tick
SELECT * FROM C;
