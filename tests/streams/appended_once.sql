CREATE TABLE T(K NUMBER, V NUMBER);
CREATE TABLE F(K NUMBER, V NUMBER);
CREATE TABLE G(K NUMBER, V NUMBER);
CREATE STREAM A ON TABLE T APPEND_ONLY = TRUE;
CREATE STREAM B ON TABLE T APPEND_ONLY = TRUE;
INSERT INTO T VALUES (1, 10), (2, 20);
-- batch 1
INSERT INTO F SELECT K, V FROM A;
-- each row that was inserted stands there once, as it was then
SELECT COUNT(*) AS N, SUM(V) AS S FROM F;
INSERT INTO T VALUES (3, 30), (4, 40), (5, 50);
UPDATE T SET V = V + 1 WHERE K BETWEEN 2 AND 6;
-- batch 2
INSERT INTO F SELECT K, V FROM A;
-- each row that was inserted stands there once, as it was then
SELECT COUNT(*) AS N, SUM(V) AS S FROM F;
INSERT INTO T VALUES (6, 60);
DELETE FROM T WHERE K BETWEEN 1 AND 3;
-- batch 3
INSERT INTO F SELECT K, V FROM A;
-- each row that was inserted stands there once, as it was then
SELECT COUNT(*) AS N, SUM(V) AS S FROM F;
INSERT INTO T VALUES (7, 70), (8, 80);
UPDATE T SET V = V + 1 WHERE K BETWEEN 4 AND 8;
-- batch 4
INSERT INTO F SELECT K, V FROM A;
-- another stream on the table, at another time
INSERT INTO G SELECT K, V FROM B;
-- each row that was inserted stands there once, as it was then
SELECT COUNT(*) AS N, SUM(V) AS S FROM F;
INSERT INTO T VALUES (9, 90), (10, 100), (11, 110);
BEGIN;
INSERT INTO F SELECT K, V FROM A;
ROLLBACK;
-- batch 5
INSERT INTO F SELECT K, V FROM A;
-- each row that was inserted stands there once, as it was then
SELECT COUNT(*) AS N, SUM(V) AS S FROM F;
INSERT INTO T VALUES (12, 120);
UPDATE T SET V = V + 1 WHERE K BETWEEN 6 AND 10;
DELETE FROM T WHERE K BETWEEN 4 AND 6;
-- batch 6
INSERT INTO F SELECT K, V FROM A;
-- each row that was inserted stands there once, as it was then
SELECT COUNT(*) AS N, SUM(V) AS S FROM F;
INSERT INTO T VALUES (13, 130), (14, 140);
INSERT INTO F SELECT K, V * 999999999999999999 FROM A;
-- batch 7
INSERT INTO F SELECT K, V FROM A;
-- each row that was inserted stands there once, as it was then
SELECT COUNT(*) AS N, SUM(V) AS S FROM F;
INSERT INTO T VALUES (15, 150), (16, 160), (17, 170);
UPDATE T SET V = V + 1 WHERE K BETWEEN 8 AND 12;
-- batch 8
INSERT INTO F SELECT K, V FROM A;
-- another stream on the table, at another time
INSERT INTO G SELECT K, V FROM B;
-- each row that was inserted stands there once, as it was then
SELECT COUNT(*) AS N, SUM(V) AS S FROM F;
INSERT INTO T VALUES (18, 180);
DELETE FROM T WHERE K BETWEEN 7 AND 9;
-- batch 9
INSERT INTO F SELECT K, V FROM A;
-- each row that was inserted stands there once, as it was then
SELECT COUNT(*) AS N, SUM(V) AS S FROM F;
INSERT INTO T VALUES (19, 190), (20, 200);
UPDATE T SET V = V + 1 WHERE K BETWEEN 10 AND 14;
BEGIN;
INSERT INTO F SELECT K, V FROM A;
ROLLBACK;
-- batch 10
INSERT INTO F SELECT K, V FROM A;
-- each row that was inserted stands there once, as it was then
SELECT COUNT(*) AS N, SUM(V) AS S FROM F;
INSERT INTO T VALUES (21, 210), (22, 220), (23, 230);
-- batch 11
INSERT INTO F SELECT K, V FROM A;
-- each row that was inserted stands there once, as it was then
SELECT COUNT(*) AS N, SUM(V) AS S FROM F;
INSERT INTO T VALUES (24, 240);
UPDATE T SET V = V + 1 WHERE K BETWEEN 12 AND 16;
DELETE FROM T WHERE K BETWEEN 10 AND 12;
-- batch 12
INSERT INTO F SELECT K, V FROM A;
-- another stream on the table, at another time
INSERT INTO G SELECT K, V FROM B;
-- each row that was inserted stands there once, as it was then
SELECT COUNT(*) AS N, SUM(V) AS S FROM F;
INSERT INTO T VALUES (25, 250), (26, 260);
-- batch 13
INSERT INTO F SELECT K, V FROM A;
-- each row that was inserted stands there once, as it was then
SELECT COUNT(*) AS N, SUM(V) AS S FROM F;
INSERT INTO T VALUES (27, 270), (28, 280), (29, 290);
UPDATE T SET V = V + 1 WHERE K BETWEEN 14 AND 18;
INSERT INTO F SELECT K, V * 999999999999999999 FROM A;
-- batch 14
INSERT INTO F SELECT K, V FROM A;
-- each row that was inserted stands there once, as it was then
SELECT COUNT(*) AS N, SUM(V) AS S FROM F;
INSERT INTO T VALUES (30, 300);
DELETE FROM T WHERE K BETWEEN 13 AND 15;
BEGIN;
INSERT INTO F SELECT K, V FROM A;
ROLLBACK;
-- batch 15
INSERT INTO F SELECT K, V FROM A;
-- each row that was inserted stands there once, as it was then
SELECT COUNT(*) AS N, SUM(V) AS S FROM F;
INSERT INTO T VALUES (31, 310), (32, 320);
UPDATE T SET V = V + 1 WHERE K BETWEEN 16 AND 20;
-- batch 16
INSERT INTO F SELECT K, V FROM A;
-- another stream on the table, at another time
INSERT INTO G SELECT K, V FROM B;
-- each row that was inserted stands there once, as it was then
SELECT COUNT(*) AS N, SUM(V) AS S FROM F;
INSERT INTO T VALUES (33, 330), (34, 340), (35, 350);
-- batch 17
INSERT INTO F SELECT K, V FROM A;
-- each row that was inserted stands there once, as it was then
SELECT COUNT(*) AS N, SUM(V) AS S FROM F;
INSERT INTO T VALUES (36, 360);
UPDATE T SET V = V + 1 WHERE K BETWEEN 18 AND 22;
DELETE FROM T WHERE K BETWEEN 16 AND 18;
-- batch 18
INSERT INTO F SELECT K, V FROM A;
-- each row that was inserted stands there once, as it was then
SELECT COUNT(*) AS N, SUM(V) AS S FROM F;
INSERT INTO T VALUES (37, 370), (38, 380);
-- batch 19
INSERT INTO F SELECT K, V FROM A;
-- each row that was inserted stands there once, as it was then
SELECT COUNT(*) AS N, SUM(V) AS S FROM F;
INSERT INTO T VALUES (39, 390), (40, 400), (41, 410);
UPDATE T SET V = V + 1 WHERE K BETWEEN 20 AND 24;
BEGIN;
INSERT INTO F SELECT K, V FROM A;
ROLLBACK;
-- batch 20
INSERT INTO F SELECT K, V FROM A;
-- another stream on the table, at another time
INSERT INTO G SELECT K, V FROM B;
-- each row that was inserted stands there once, as it was then
SELECT COUNT(*) AS N, SUM(V) AS S FROM F;
-- and here
SELECT COUNT(*) AS N, SUM(V) AS S FROM G;
SELECT COUNT(*) AS N FROM (SELECT K, COUNT(*) AS C FROM F GROUP BY K) Q WHERE Q.C = 1;
-- the table itself went on
SELECT COUNT(*) AS N, SUM(V) AS S FROM T;
