CREATE TABLE T(K NUMBER, V NUMBER);
CREATE STREAM S ON TABLE T;
INSERT INTO T VALUES (1, 10);
UPDATE T SET V = 11;
UPDATE T SET V = V + 1;
-- a row that came and was changed came as it is now
SELECT * FROM S;
