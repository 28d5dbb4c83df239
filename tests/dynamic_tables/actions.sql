CREATE TABLE T(K NUMBER, V NUMBER);
CREATE TABLE U(K NUMBER);
INSERT INTO T VALUES (1, 10), (2, 20);
CREATE DYNAMIC TABLE D TARGET_LAG = DOWNSTREAM AS SELECT K FROM T;
CREATE DYNAMIC TABLE F TARGET_LAG = DOWNSTREAM REFRESH_MODE = FULL AS SELECT K FROM T;
-- where no version came there is no data
ALTER DYNAMIC TABLE D REFRESH;
-- in FULL mode too
ALTER DYNAMIC TABLE F REFRESH;
-- a version of another table is none of its sources
INSERT INTO U VALUES (1);
ALTER DYNAMIC TABLE D REFRESH;
-- a statement that counts no row makes no version
UPDATE T SET V = 0 WHERE K = 9;
ALTER DYNAMIC TABLE D REFRESH;
-- one that counts rows makes one, whatever the rows become: nothing changes, and it isn't NO_DATA
UPDATE T SET V = V;
ALTER DYNAMIC TABLE D REFRESH;
ALTER DYNAMIC TABLE F REFRESH;
-- a change of a column that isn't read is one more such version
UPDATE T SET V = 5 WHERE K = 1;
ALTER DYNAMIC TABLE D REFRESH;
-- rows that came and went make versions too
INSERT INTO T VALUES (3, 30);
DELETE FROM T WHERE K = 3;
ALTER DYNAMIC TABLE F REFRESH;
-- a table that reads one which was refreshed with no change isn't NO_DATA
CREATE DYNAMIC TABLE G TARGET_LAG = DOWNSTREAM AS SELECT K FROM D;
UPDATE T SET V = 6 WHERE K = 1;
ALTER DYNAMIC TABLE G REFRESH;
-- one that reads one with no data is
ALTER DYNAMIC TABLE G REFRESH;
-- a version that a source got by a refresh of its own is found later
INSERT INTO T VALUES (4, 40);
ALTER DYNAMIC TABLE D REFRESH;
ALTER DYNAMIC TABLE G REFRESH;
-- of several sources one with a version is enough
CREATE DYNAMIC TABLE H TARGET_LAG = DOWNSTREAM AS SELECT K FROM G UNION ALL SELECT K FROM U;
INSERT INTO U VALUES (2);
ALTER DYNAMIC TABLE H REFRESH;
-- a source of which the query takes no row counts as well
CREATE DYNAMIC TABLE I TARGET_LAG = DOWNSTREAM AS SELECT K FROM T WHERE FALSE;
INSERT INTO T VALUES (5, 50);
ALTER DYNAMIC TABLE I REFRESH;
-- with NO_DATA the moment moves: a version up to it is looked at once
CREATE DYNAMIC TABLE J TARGET_LAG = '60 seconds' AS SELECT K FROM I;
!tick 48000
-- a change behind one grid point is data at the next
INSERT INTO T VALUES (6, 60);
!tick 95999
!tick 96000
INSERT INTO T VALUES (7, 70);
ALTER DYNAMIC TABLE J SUSPEND;
!tick 150000
INSERT INTO T VALUES (8, 80);
ALTER DYNAMIC TABLE J RESUME;
!tick
-- the version at 150001 lies behind 144000
!tick 192000
!tick 240000
