CREATE TABLE T(K NUMBER, V NUMBER);
BEGIN;
INSERT INTO T VALUES (1, 1);
!session 2
-- the table is held
UPDATE T SET V = 0;
!session 1
ROLLBACK;
!session 2
-- it is free, and the row was never there
UPDATE T SET V = 0;
