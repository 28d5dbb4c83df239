CREATE TABLE T(K NUMBER, V NUMBER);
CREATE TABLE C(K NUMBER, V NUMBER);
-- its table must be there
CREATE STREAM S ON TABLE NOPE;
-- before its name is tested
CREATE STREAM T ON TABLE NOPE;
-- a name that is taken
CREATE STREAM C ON TABLE T;
CREATE STREAM S ON TABLE T;
-- also by a stream
CREATE STREAM S ON TABLE T;
-- a stream stands on a table alone
CREATE STREAM R ON TABLE S;
-- a table takes no stream's name
CREATE TABLE S(K NUMBER);
-- nor its place
CREATE OR REPLACE TABLE S(K NUMBER);
-- DROP TABLE takes a table
DROP TABLE S;
-- DROP STREAM a stream
DROP STREAM T;
-- that is there
DROP STREAM NOPE;
-- a stream isn't changed
INSERT INTO S VALUES (1, 1);
-- nor updated
UPDATE S SET V = 1;
-- nor emptied
DELETE FROM S;
-- nor merged into
MERGE INTO S USING T ON S.K = T.K WHEN MATCHED THEN DELETE;
-- columns that it hasn't got
SELECT W FROM S;
-- a new table has no column of such a name
CREATE TABLE D(METADATA$ACTION VARCHAR);
BEGIN;
-- nothing is created in a transaction
CREATE STREAM R ON TABLE T;
-- nor dropped
DROP STREAM S;
ROLLBACK;
INSERT INTO T VALUES (1, 10);
CREATE STREAM R ON TABLE T;
DROP TABLE T;
-- a stream whose table was dropped keeps its columns
SELECT W FROM S;
-- and is read no more
SELECT K FROM S;
-- of several the one of the least id is told
SELECT R.K FROM R JOIN S ON R.K = S.K;
-- by a changing statement neither
INSERT INTO C SELECT K, V FROM R;
CREATE TABLE T(K NUMBER, V NUMBER);
-- a table of the same name is another one
SELECT K FROM S;
CREATE STREAM Q ON TABLE T;
CREATE OR REPLACE TABLE T(K NUMBER, V NUMBER);
-- a replaced one is gone too
SELECT K FROM Q;
-- names and types are tested before
SELECT K + METADATA$ACTION FROM Q;
-- it can be dropped all the same
DROP STREAM Q;
-- then its name is free
CREATE STREAM Q ON TABLE T;
-- for one that shows what is new
SELECT K FROM Q;
-- of appended rows too
CREATE STREAM P ON TABLE T APPEND_ONLY = TRUE;
