CREATE TABLE T(K NUMBER, V NUMBER);
CREATE STREAM S ON TABLE T;
!tick 1209600001
-- at the last stamp that it is read
SELECT K FROM S;
-- and behind it
SELECT K FROM S;
