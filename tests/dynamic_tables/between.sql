-- what a join would give in between, beyond 18 digits, is never evaluated: at the target it has no rows
CREATE TABLE L(K NUMBER, A NUMBER);
CREATE TABLE R(K NUMBER, B NUMBER);
INSERT INTO L VALUES (1, 1000000000);
CREATE DYNAMIC TABLE D TARGET_LAG = '60 seconds' WAREHOUSE = W AS SELECT L.A * R.B AS P FROM L JOIN R ON L.K = R.K;
DELETE FROM L;
INSERT INTO R VALUES (1, 10000000000);
!tick 48000
