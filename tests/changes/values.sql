CREATE TABLE N(K NUMBER, V NUMBER);
CREATE TABLE B(P BOOLEAN, Q BOOLEAN);
CREATE TABLE W(S VARCHAR);
-- the greatest and the least number
INSERT INTO N VALUES (1, 999999999999999999), (2, -999999999999999999), (003, -0), (4, NULL);
-- one more than the greatest
UPDATE N SET V = V + 1 WHERE K = 1;
-- one less than the least
UPDATE N SET V = V - 1 WHERE K = 2;
-- a minus sign leaves no number out of range
UPDATE N SET V = - V WHERE K <= 2;
-- a part of 19 digits, though the whole has fewer
UPDATE N SET V = V + 1 - 1 WHERE K = 2;
-- a product that leaves 64 bits
UPDATE N SET V = V * V WHERE K = 2;
-- arithmetic with NULL is never out of range
UPDATE N SET V = 999999999999999999 + V WHERE K = 4;
-- a product with zero, and one with NULL
UPDATE N SET V = V * 999999999999999999 WHERE K >= 3;
-- what these leave
SELECT * FROM N;
-- WHERE with IN
UPDATE N SET V = 1 WHERE K IN (3, 4);
-- NOT IN with NULL is never TRUE
DELETE FROM N WHERE V NOT IN (1, NULL);
-- an item of 19 digits
DELETE FROM N WHERE K IN (1, 999999999999999999 + K);
-- WHERE with BETWEEN
DELETE FROM N WHERE K NOT BETWEEN 2 AND 3;
-- a SUM of 19 digits
INSERT INTO N SELECT 5, SUM(V) FROM N;
-- a SUM is looked at once, over all rows
INSERT INTO N SELECT 5, SUM(V) FROM (SELECT V FROM N UNION ALL SELECT - K FROM N) Q;
-- one and the greatest, less two and three
SELECT * FROM N;
-- three truth values
INSERT INTO B VALUES (FALSE, FALSE), (FALSE, TRUE), (FALSE, NULL), (TRUE, FALSE), (TRUE, TRUE), (TRUE, NULL), (NULL, FALSE), (NULL, TRUE), (NULL, NULL);
-- AND is TRUE once
UPDATE B SET P = P WHERE P AND Q;
-- NOT AND where a side is FALSE
UPDATE B SET P = P WHERE NOT (P AND Q);
-- OR where a side is TRUE
UPDATE B SET P = P WHERE P OR Q;
-- NOT OR once
UPDATE B SET P = P WHERE NOT (P OR Q);
-- NOT
UPDATE B SET P = P WHERE NOT P;
-- IS NULL
UPDATE B SET P = P WHERE P IS NULL;
-- equal truth values
UPDATE B SET P = P WHERE P = Q;
-- unequal ones
UPDATE B SET P = P WHERE P <> Q;
-- FALSE is less than TRUE
UPDATE B SET P = P WHERE P < Q;
-- IN with NULL
UPDATE B SET P = P WHERE P IN (TRUE, NULL);
-- SET takes truth values of the old row
UPDATE B SET P = P AND Q, Q = P OR Q;
-- what it gives
SELECT P, Q, COUNT(*) AS N FROM B GROUP BY P, Q;
-- texts
INSERT INTO W VALUES ('it''s'), (''), ('B'), ('a'), (NULL), ('é');
-- texts compare by their bytes
DELETE FROM W WHERE S < 'a';
-- an empty text is no NULL
UPDATE W SET S = '' WHERE S IS NULL;
-- a quote is doubled
SELECT S FROM W;
-- a text of two quotes
UPDATE W SET S = '''''' WHERE S = 'it''s';
-- each quote is doubled
SELECT S FROM W WHERE S < 'a' AND S <> '';
-- a condition without columns
DELETE FROM W WHERE 1 = 1;
