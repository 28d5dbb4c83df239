-- a quoted name, texts, truths and no day
create table "k v" ("a" varchar, b Boolean, C string)
data_retention_time_in_days = 0;
-- values of each type
INSERT INTO "k v" VALUES (NULL, FALSE, 'é'), ('x''y', TRUE, NULL);
-- texts stand before NULL
SELECT * FROM "k v";
-- a number as a text
INSERT INTO "k v" VALUES (1, TRUE, NULL);
-- numbers
CREATE TABLE N(K INT) DATA_RETENTION_TIME_IN_DAYS = 90;
-- with minus signs, zeros and 18 digits
INSERT INTO N VALUES (-007), (999999999999999999), (-(3)), (-999999999999999999), (0000000000000000000012), (-0), (9), (-10), (-9), (10);
-- 19 digits are no number
INSERT INTO N VALUES (1000000000000000000);
-- by size
SELECT * FROM N;
CREATE TABLE X(V VARCHAR);
INSERT INTO X VALUES ('a'), ('AB'), (NULL), ('B'), (''), ('AA'), ('A'), ('ä');
-- texts by their bytes
SELECT * FROM X;
CREATE TABLE R(V NUMBER, W NUMBER);
INSERT INTO R VALUES (NULL, 1), (2, 1), (1, NULL), (1, 3);
-- rows from left to right
SELECT * FROM R;
