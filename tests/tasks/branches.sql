CREATE TABLE T(K NUMBER);
CREATE STREAM S ON TABLE T;
CREATE TABLE L(K NUMBER);
CREATE TASK R AS INSERT INTO L VALUES (0);
CREATE TASK A AFTER R AS INSERT INTO L VALUES (1);
CREATE TASK B AFTER R WHEN SYSTEM$STREAM_HAS_DATA('S') AS INSERT INTO L SELECT K FROM S;
CREATE TASK J AFTER A, B AS INSERT INTO L VALUES (9);
ALTER TASK A RESUME;
ALTER TASK B RESUME;
ALTER TASK J RESUME;
-- the root is suspended and has no schedule: it is executed
EXECUTE TASK R;
!tick
!tick
-- nothing came into T, so B is skipped, and J with it, and the run has succeeded
!tick
-- it is at rest
!tick
-- with a row in T the second run has all four
INSERT INTO T VALUES (5);
EXECUTE TASK R;
!tick
!tick
!tick
!tick
-- what the two runs left
SELECT K FROM L;
-- the third has nothing to move on again
EXECUTE TASK R;
!tick
!tick
!tick
