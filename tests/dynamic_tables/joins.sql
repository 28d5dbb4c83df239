CREATE TABLE L(K NUMBER, A NUMBER);
CREATE TABLE R(K NUMBER, B NUMBER);
INSERT INTO L VALUES (1, 2);
INSERT INTO R VALUES (1, 2);
CREATE DYNAMIC TABLE D TARGET_LAG = '60 seconds' REFRESH_MODE = INCREMENTAL
  AS SELECT L.A + R.B AS P FROM L JOIN R ON L.K = R.K;
INSERT INTO L VALUES (1, 7);
INSERT INTO R VALUES (1, 8);
-- rows that come on both sides meet those that stand, and each other
!tick 48000
SELECT * FROM D;
-- a row that goes takes its pairs with it
DELETE FROM L WHERE A = 2;
ALTER DYNAMIC TABLE D REFRESH;
-- one that goes meets none that comes; 9 stays, once 7 + 2 and now 1 + 8
DELETE FROM L WHERE A = 7;
INSERT INTO L VALUES (1, 1);
INSERT INTO R VALUES (1, 100);
ALTER DYNAMIC TABLE D REFRESH;
-- rows that are changed on both sides
UPDATE L SET A = 5;
UPDATE R SET B = B + 1 WHERE B > 2;
ALTER DYNAMIC TABLE D REFRESH;
-- NULL keys meet nothing, also each other
INSERT INTO L VALUES (NULL, 50);
INSERT INTO R VALUES (NULL, 60);
ALTER DYNAMIC TABLE D REFRESH;
-- a key that becomes another leaves its pairs and finds a new one
UPDATE L SET K = 2 WHERE A = 5;
INSERT INTO R VALUES (2, 1);
ALTER DYNAMIC TABLE D REFRESH;
SELECT * FROM D;
-- a table with itself: a row that comes meets the others from both sides, and itself
CREATE DYNAMIC TABLE S TARGET_LAG = DOWNSTREAM REFRESH_MODE = INCREMENTAL
  AS SELECT X.A AS A, Y.A AS B FROM L X JOIN L Y ON X.K = Y.K;
INSERT INTO L VALUES (2, 6);
ALTER DYNAMIC TABLE S REFRESH;
-- a changed row goes from both sides, and comes on both
UPDATE L SET A = 7 WHERE A = 5;
ALTER DYNAMIC TABLE S REFRESH;
DELETE FROM L WHERE A = 6;
ALTER DYNAMIC TABLE S REFRESH;
SELECT * FROM S;
-- three tables, to each of which rows come
CREATE TABLE M(K NUMBER, C NUMBER);
CREATE DYNAMIC TABLE E TARGET_LAG = DOWNSTREAM REFRESH_MODE = INCREMENTAL
  AS SELECT L.A, R.B, M.C FROM L JOIN R ON L.K = R.K JOIN M ON R.B = M.K AND M.C < L.A;
INSERT INTO L VALUES (3, 4);
INSERT INTO R VALUES (3, 5), (2, 5);
INSERT INTO M VALUES (5, 1), (5, 6), (1, 3);
ALTER DYNAMIC TABLE E REFRESH;
SELECT * FROM E;
-- a row of the second goes while one of the third comes
DELETE FROM R WHERE K = 2 AND B = 5;
INSERT INTO M VALUES (5, 2);
ALTER DYNAMIC TABLE E REFRESH;
-- equal rows on both sides: each new one meets each
INSERT INTO L VALUES (4, 9), (4, 9);
INSERT INTO R VALUES (4, 7), (4, 7), (4, 7);
INSERT INTO M VALUES (7, 8);
ALTER DYNAMIC TABLE E REFRESH;
-- rows that were put in the place of equal ones change nothing
DELETE FROM L WHERE K = 4;
DELETE FROM R WHERE K = 4;
INSERT INTO L VALUES (4, 9), (4, 9), (4, 9);
INSERT INTO R VALUES (4, 7), (4, 7);
ALTER DYNAMIC TABLE E REFRESH;
-- all is gone where one table is empty
DELETE FROM M;
ALTER DYNAMIC TABLE E REFRESH;
-- a change that lies behind the moment of the refresh isn't in it, and comes with the next one
INSERT INTO L VALUES (2, 20);
!tick 95998
INSERT INTO R VALUES (2, 300);
INSERT INTO R VALUES (2, 400);
INSERT INTO L VALUES (2, 1000);
!tick
!tick 144000
