CREATE TABLE T(K NUMBER);
CREATE TABLE L(K NUMBER) DATA_RETENTION_TIME_IN_DAYS = 20;
CREATE TABLE C(K NUMBER);
CREATE STREAM S ON TABLE T;
CREATE STREAM R ON TABLE L;
INSERT INTO T VALUES (1);
INSERT INTO L VALUES (2);
!tick 1209600003
-- 14 days behind its offset a stream is read
SELECT K FROM S;
-- and a millisecond later it isn't
SELECT K FROM S;
-- by a changing statement neither
INSERT INTO C SELECT K FROM S;
-- of two, the one that is late
SELECT R.K FROM R JOIN S ON R.K = S.K;
-- a retention of more days counts
SELECT K FROM R;
!tick 1728000004
-- up to its last millisecond
SELECT K FROM R;
-- and not behind it
SELECT K FROM R;
-- where both are late, the first in the text
SELECT R.K FROM R JOIN S ON R.K = S.K;
SELECT R.K FROM S JOIN R ON R.K = S.K;
DROP TABLE L;
-- a source that is gone is told before a stream that is late
SELECT R.K FROM S JOIN R ON R.K = S.K;
DROP STREAM S;
CREATE STREAM S ON TABLE T;
-- a new stream begins anew
SELECT K FROM S;
INSERT INTO T VALUES (3);
-- a stream that is moved on can be read for 14 days more
INSERT INTO C SELECT K FROM S;
!tick 2937600010
BEGIN;
INSERT INTO C SELECT K FROM S;
!tick 2937600017
-- in a transaction the stamp of the statement counts
SELECT K FROM S;
-- its commit moves the offset to its start
COMMIT;
-- from which on it is read again
SELECT K FROM S;
