CREATE TABLE ONE(X NUMBER);
INSERT INTO ONE VALUES (1);
CREATE TABLE S(SUM NUMBER, COUNT NUMBER);
INSERT INTO S VALUES (3, 4);
-- AND before OR on its right
SELECT TRUE OR TRUE AND FALSE FROM ONE;
-- AND before OR on its left
SELECT FALSE AND TRUE OR TRUE FROM ONE;
-- NOT before AND
SELECT NOT FALSE AND FALSE FROM ONE;
-- a comparison before NOT
SELECT NOT 1 = 2 FROM ONE;
-- a sum before a comparison
SELECT 3 = 1 + 2 FROM ONE;
-- on its left too
SELECT 1 - 2 < 0 FROM ONE;
-- a product before a sum
SELECT 1 + 2 * 3 FROM ONE;
-- a product before a difference
SELECT 2 * 3 - 1 FROM ONE;
-- a minus sign before a product
SELECT -2 * -3 FROM ONE;
-- a minus sign before a sum
SELECT -2 + 3 FROM ONE;
-- minus signs
SELECT - -5, - - -5 FROM ONE;
-- a minus sign behind one that subtracts
SELECT 2 - -3 FROM ONE;
-- differences to the left
SELECT 10 - 4 - 3 FROM ONE;
-- sums and differences to the left
SELECT 10 - 4 + 3 FROM ONE;
-- parentheses
SELECT 10 - (4 - 3), 2 * (3 - 1), -(2 + 3), NOT (FALSE AND FALSE) FROM ONE;
-- parentheses around two comparisons
SELECT (1 = 1) = (2 = 2) FROM ONE;
-- NOT of NOT
SELECT NOT NOT TRUE FROM ONE;
-- NOT IN
SELECT 2 NOT IN (1, 3) FROM ONE;
-- NOT of an IN
SELECT NOT 1 IN (1) FROM ONE;
-- a sum before IN
SELECT 1 + 1 IN (2) FROM ONE;
-- an IN of expressions
SELECT TRUE IN (1 = 2, NOT FALSE) FROM ONE;
-- the AND of BETWEEN and one behind it
SELECT 3 NOT BETWEEN 1 AND 2 AND FALSE FROM ONE;
-- sums in BETWEEN
SELECT 1 + 1 BETWEEN 0 + 2 AND 3 - 1 FROM ONE;
-- NOT of a BETWEEN
SELECT NOT 1 BETWEEN 2 AND 3 FROM ONE;
-- IS NOT NULL
SELECT X IS NOT NULL FROM ONE;
-- IS NULL of an entry's column
SELECT ONE.X IS NULL FROM ONE;
-- a sum before IS NULL
SELECT X + NULL IS NULL FROM ONE;
-- the six comparisons
SELECT 1 = 2, 1 <> 2, 1 != 2, 1 < 2, 1 <= 2, 1 > 2, 1 >= 2 FROM ONE;
-- constants
SELECT TRUE OR FALSE OR NULL FROM ONE;
-- SUM before no parenthesis is a column
SELECT sum + "S".sum FROM S;
-- COUNT too
SELECT count, S.count FROM S;
-- calls
SELECT SUM(sum), COUNT (*), COUNT( count ) FROM S;
-- a call in a comparison
SELECT COUNT (*) <> 0 FROM ONE;
-- a call in a call is read, and refused by its types
SELECT SUM(COUNT(X)) FROM ONE;
-- a comma goes on
SELECT X, 2 FROM ONE;
-- no operand
SELECT X + * X FROM ONE;
SELECT X + FROM ONE;
SELECT * X FROM ONE;
SELECT X AND FROM ONE;
SELECT OR X FROM ONE;
SELECT NOT FROM ONE;
SELECT - FROM ONE;
-- a second comparison
SELECT X = X = X FROM ONE;
SELECT X = 1 IS NULL FROM ONE;
SELECT X IN (1) = TRUE FROM ONE;
SELECT X IS NULL IS NULL FROM ONE;
-- a reserved word
SELECT SELECT FROM ONE;
SELECT X + FROM FROM ONE;
SELECT ALL FROM ONE;
-- a call of a column
SELECT X (1) FROM ONE;
SELECT ONE.X (1) FROM ONE;
-- a parenthesis without its end
SELECT (X FROM ONE;
SELECT ((X) FROM ONE;
SELECT SUM(X FROM ONE;
-- one without its beginning
SELECT X) FROM ONE;
SELECT (X)) FROM ONE;
-- nothing in parentheses
SELECT () FROM ONE;
SELECT X IN () FROM ONE;
SELECT COUNT () FROM ONE;
SELECT SUM () FROM ONE;
-- a star in SUM
SELECT SUM(*) FROM ONE;
-- two in a call
SELECT SUM(X, X) FROM ONE;
SELECT COUNT(X, X) FROM ONE;
-- IS without NULL
SELECT X IS X FROM ONE;
SELECT X IS TRUE FROM ONE;
SELECT X IS NOT TRUE FROM ONE;
-- NOT behind a sum
SELECT X NOT X FROM ONE;
SELECT X NOT = 1 FROM ONE;
SELECT X NOT IS NULL FROM ONE;
-- IN without a list
SELECT X IN 1 FROM ONE;
SELECT X IN (1,) FROM ONE;
SELECT X IN (1 FROM ONE;
-- BETWEEN without AND
SELECT X BETWEEN 1 FROM ONE;
SELECT X BETWEEN 1, 2 FROM ONE;
SELECT X BETWEEN 1 OR 2 FROM ONE;
-- BETWEEN takes sums
SELECT X BETWEEN (1) AND NOT TRUE FROM ONE;
-- a column in a column
SELECT ONE.X.X FROM ONE;
SELECT ONE. FROM ONE;
SELECT .X FROM ONE;
-- a number as a name
SELECT 1.X FROM ONE;
SELECT ONE.1 FROM ONE;
-- a plus sign alone
SELECT +X FROM ONE;
