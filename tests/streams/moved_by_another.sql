CREATE TABLE T(K NUMBER, V NUMBER);
CREATE TABLE C(K NUMBER, V NUMBER);
CREATE STREAM S ON TABLE T;
INSERT INTO T VALUES (1, 10);
BEGIN;
!session 2
INSERT INTO C SELECT K, V FROM S;
!session 1
-- the offset lies at the start already
INSERT INTO C SELECT K, V FROM S;
-- a commit of a stream that was read
COMMIT;
INSERT INTO T VALUES (2, 20);
-- the offset stayed
SELECT K FROM S;
