CREATE TABLE T(K NUMBER);
CREATE TABLE U(K NUMBER);
CREATE TABLE C(K NUMBER);
CREATE STREAM S ON TABLE T;
CREATE TASK J AS INSERT INTO C SELECT U.K FROM U JOIN S ON U.K = S.K;
CREATE TASK M AS MERGE INTO C USING S ON C.K = S.K WHEN NOT MATCHED THEN INSERT VALUES (S.K);
CREATE TASK Q AS DELETE FROM C WHERE K = 99;
CREATE TASK N AS INSERT INTO C SELECT Q.K FROM U JOIN (SELECT K FROM S) Q ON TRUE;
CREATE TASK W WHEN SYSTEM$STREAM_HAS_DATA('S') AS INSERT INTO U VALUES (5);
INSERT INTO T VALUES (1);
INSERT INTO U VALUES (1);
CREATE TABLE D(K NUMBER);
EXECUTE TASK J;
EXECUTE TASK M;
EXECUTE TASK N;
!session 2
BEGIN;
INSERT INTO D SELECT K FROM S;
!session 1
-- three tasks read the held stream, behind JOIN, behind USING and in a query in parentheses
!tick
EXECUTE TASK W;
-- a condition on it doesn't wait
!tick
EXECUTE TASK Q;
-- a task behind those that wait goes on, though its id is greater than theirs
!tick
CREATE TASK P SCHEDULE = '1 MINUTE' AS DELETE FROM C WHERE K = 99;
ALTER TASK P RESUME;
-- and a root that is due begins
!tick 60024
!tick
!session 2
-- a rolled back transaction has moved nothing on
ROLLBACK;
!session 1
!tick
-- the first of the three has consumed what the stream showed
!tick
!tick
CREATE TASK X AS INSERT INTO D SELECT K FROM U;
EXECUTE TASK X;
!session 2
BEGIN;
UPDATE U SET K = K + 10;
-- a table that is read and not changed isn't waited for
!tick
-- its rows are those that were committed, also in the session that changed them
SELECT * FROM D;
ROLLBACK;
BEGIN;
INSERT INTO C VALUES (3);
EXECUTE TASK Q;
!session 3
EXECUTE TASK Q;
-- the target is held by another session's transaction
!tick
!session 2
-- and by that of the session that is at work
!tick
COMMIT;
-- once it has ended the task is carried out
!tick
-- a stream takes the target's name
DROP TABLE C;
CREATE STREAM C ON TABLE T;
EXECUTE TASK Q;
BEGIN;
INSERT INTO D SELECT K FROM C;
!session 1
-- while it is held the task waits for it
!tick
!session 2
COMMIT;
-- and then it fails
!tick
CREATE TASK V WHEN SYSTEM$STREAM_HAS_DATA('S') AS DELETE FROM D;
EXECUTE TASK V;
BEGIN;
DELETE FROM D WHERE K = 5;
-- a task whose condition doesn't hold waits for the target all the same
!tick
COMMIT;
!tick
-- a name that nothing has holds nothing back
EXECUTE TASK J;
DROP STREAM C;
BEGIN;
INSERT INTO D VALUES (1);
!tick
COMMIT;
