-- a table
CREATE TABLE t (a NUMBER);
-- of numbers
create table n(a int, b integer, c bigint);
-- which take numbers
INSERT INTO n VALUES (1, 2, 3);
-- of texts
CREATE TABLE x (a VARCHAR, b STRING, c TEXT);
-- which take texts
INSERT INTO x VALUES ('a', 'b', 'c');
-- of truths
CREATE TABLE b (a BOOLEAN);
-- which take truths
INSERT INTO b VALUES (TRUE);
-- with quoted names of columns
CREATE TABLE q (a bigint, "b c" text, "d" boolean);
-- which are kept
SELECT * FROM q;
-- OR REPLACE
CREATE OR REPLACE TABLE q (a INT);
-- with no day
CREATE TABLE r0 (a INT) DATA_RETENTION_TIME_IN_DAYS = 0;
-- with days
CREATE TABLE r7 (a INT) DATA_RETENTION_TIME_IN_DAYS=7;
-- with days behind zeros
CREATE TABLE r91 (a INT) DATA_RETENTION_TIME_IN_DAYS = 00091;
-- with every part
CREATE OR REPLACE TABLE "r" (a INT, b TEXT) data_retention_time_in_days = 90;
-- two columns of one name are read, and refused by the name
CREATE TABLE u (a INT, a INT);
-- words of the rule as names
CREATE TABLE TABLE(NUMBER NUMBER);
-- words that begin as OR
CREATE TABLE OR_ (REPLACE INT);
-- REPLACE as a name
CREATE TABLE REPLACE (TABLE TEXT);
-- types as names
CREATE TABLE DYNAMIC (TEXT TEXT, INT INT);
-- reserved words in quotes
CREATE TABLE "SELECT" ("FROM" INT);
-- SUM in quotes before a parenthesis
CREATE TABLE "SUM" (SUM INT, COUNT INT);
-- a stream
CREATE STREAM s ON TABLE t;
-- of appended rows
CREATE STREAM a ON TABLE t APPEND_ONLY = TRUE;
-- of all changes
CREATE STREAM f ON TABLE t append_only = false;
-- words of the rule as names
CREATE STREAM STREAM ON TABLE TABLE;
CREATE TABLE APPEND_ONLY (K NUMBER);
-- APPEND_ONLY as the table
CREATE STREAM ON_ ON TABLE APPEND_ONLY;
-- before the option
CREATE STREAM TRUE_ ON TABLE APPEND_ONLY APPEND_ONLY = TRUE;
-- no table
DROP TABLE v;
-- a table
DROP TABLE n;
-- TABLE
DROP TABLE TABLE;
-- DYNAMIC
DROP TABLE DYNAMIC;
-- SUM
DROP TABLE SUM;
-- by a quoted name
DROP TABLE "a b";
-- a stream
DROP STREAM s;
-- STREAM
DROP STREAM STREAM;
-- a transaction
BEGIN;
-- and its end
COMMIT;
-- in small letters
begin transaction;
-- in small letters
commit work;
-- WORK
BEGIN WORK;
-- which is rolled back
ROLLBACK;
-- START
START TRANSACTION;
-- WORK
Rollback Work;
-- no table
CREATE;
CREATE TABLE;
CREATE TABLE t;
CREATE TABLE (a INT);
CREATE t (a INT);
CREATE VIEW v AS SELECT * FROM t;
-- columns in parentheses
CREATE TABLE t ();
CREATE TABLE t a INT;
CREATE TABLE t (a INT;
CREATE TABLE t (a INT));
-- commas between them
CREATE TABLE t (a INT,);
CREATE TABLE t (, a INT);
CREATE TABLE t (a INT b INT);
-- a type for each
CREATE TABLE t (a);
CREATE TABLE t (a FLOAT);
CREATE TABLE t (a "INT");
CREATE TABLE t (a INT INT);
-- names
CREATE TABLE t.u (a INT);
CREATE TABLE SUM (a INT);
CREATE TABLE COUNT(a INT);
CREATE TABLE SELECT (a INT);
CREATE TABLE t (FROM INT);
-- something behind it
CREATE TABLE t (a INT) x;
-- OR REPLACE, cut
CREATE REPLACE TABLE t (a INT);
CREATE OR TABLE t (a INT);
CREATE OR REPLACE t (a INT);
-- OR REPLACE makes tables alone
CREATE OR REPLACE STREAM s ON TABLE t;
CREATE OR REPLACE TASK k AS DELETE FROM t;
CREATE OR REPLACE DYNAMIC TABLE d TARGET_LAG = DOWNSTREAM AS SELECT * FROM t;
-- days are a number behind a sign, and stand once
CREATE TABLE t (a INT) DATA_RETENTION_TIME_IN_DAYS;
CREATE TABLE t (a INT) DATA_RETENTION_TIME_IN_DAYS =;
CREATE TABLE t (a INT) DATA_RETENTION_TIME_IN_DAYS = -1;
CREATE TABLE t (a INT) DATA_RETENTION_TIME_IN_DAYS = 'x';
CREATE TABLE t (a INT) DATA_RETENTION_TIME_IN_DAYS 1;
CREATE TABLE t (a INT) DATA_RETENTION_TIME_IN_DAYS = 1 2;
CREATE TABLE t (a INT) DATA_RETENTION_TIME_IN_DAYS = 1 DATA_RETENTION_TIME_IN_DAYS = 1;
-- a stream, cut
CREATE STREAM s;
CREATE STREAM s ON t;
CREATE STREAM s TABLE t;
CREATE STREAM ON TABLE t;
CREATE STREAM s ON TABLE;
-- APPEND_ONLY has one truth
CREATE STREAM s ON TABLE t APPEND_ONLY;
CREATE STREAM s ON TABLE t APPEND_ONLY = 1;
CREATE STREAM s ON TABLE t APPEND_ONLY TRUE;
CREATE STREAM s ON TABLE t APPEND_ONLY = TRUE TRUE;
CREATE STREAM s ON TABLE t APPEND_ONLY = NULL;
-- a drop, cut
DROP;
DROP TABLE;
DROP t;
DROP VIEW v;
-- one object at a time
DROP TABLE t u;
DROP TABLE t, u;
DROP TABLE SELECT;
DROP TABLE a.b;
-- other words about transactions
BEGIN x;
BEGIN TRANSACTION WORK;
BEGIN WORK TRANSACTION;
START;
START WORK;
START TRANSACTION x;
COMMIT TRANSACTION;
COMMIT WORK WORK;
ROLLBACK TRANSACTION;
WORK;
TRANSACTION;
