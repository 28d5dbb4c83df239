CREATE TABLE T(K NUMBER, V NUMBER);
CREATE STREAM S ON TABLE T;
INSERT INTO T VALUES (1, 10);
BEGIN;
SELECT K FROM S;
!session 2
INSERT INTO T VALUES (2, 20);
!session 1
-- a stream is read up to the transaction's start
SELECT K FROM S;
-- and its table as it is committed now
SELECT K FROM T;
