CREATE TABLE L(K VARCHAR);
CREATE TABLE TB(K NUMBER);
CREATE TABLE TC(K NUMBER);
CREATE TASK A AS INSERT INTO L VALUES ('A');
CREATE TASK B AFTER A WHEN SYSTEM$STREAM_HAS_DATA('SB') AS INSERT INTO L VALUES ('B');
CREATE TASK C AFTER A WHEN SYSTEM$STREAM_HAS_DATA('SC') AS INSERT INTO L VALUES ('C');
CREATE TASK D AFTER B, C AS INSERT INTO L VALUES ('D');
ALTER TASK B RESUME;
ALTER TASK C RESUME;
ALTER TASK D RESUME;
-- both fail: then D is skipped with the first, and the run has failed
EXECUTE TASK A;
!tick
!tick
!tick
CREATE STREAM SC ON TABLE TC;
-- B fails and C is skipped: D is skipped with B, and the run has failed
EXECUTE TASK A;
!tick
!tick
!tick
INSERT INTO TC VALUES (1);
-- B fails and C succeeds: one failed predecessor is enough for D to be skipped, and C still runs
EXECUTE TASK A;
!tick
!tick
!tick
CREATE STREAM SB ON TABLE TB;
-- B is skipped and C succeeds: one skipped predecessor is enough too, and the run has not failed
EXECUTE TASK A;
!tick
!tick
!tick
DROP STREAM SC;
-- B is skipped and C fails: D is skipped before the failure comes, and the run has failed
EXECUTE TASK A;
!tick
!tick
!tick
CREATE STREAM SC ON TABLE TC;
-- both are skipped: a run in which tasks are skipped and none fails has succeeded
EXECUTE TASK A;
!tick
!tick
!tick
INSERT INTO TB VALUES (1);
-- B succeeds and C is skipped: D is skipped with the second
EXECUTE TASK A;
!tick
!tick
!tick
INSERT INTO TC VALUES (2);
-- both succeed: D runs behind both
EXECUTE TASK A;
!tick
!tick
!tick
!tick
DROP STREAM SC;
-- B succeeds and C fails: D is skipped with the failed one, and what B did stays
EXECUTE TASK A;
!tick
!tick
!tick
-- nothing is left to do
!tick
-- how often each was carried out
SELECT K, COUNT(*) AS N FROM L GROUP BY K;
