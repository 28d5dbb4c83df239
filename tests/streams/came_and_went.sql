CREATE TABLE T(K NUMBER, V NUMBER);
CREATE STREAM S ON TABLE T;
INSERT INTO T VALUES (1, 10);
DELETE FROM T WHERE K = 1;
-- a row that came and went isn't shown
SELECT * FROM S;
-- and the stream has no data
SELECT SYSTEM$STREAM_HAS_DATA('s');
