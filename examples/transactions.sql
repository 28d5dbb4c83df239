-- Two clerks work on the accounts of a bank, each in a session of their own.
CREATE TABLE ACCOUNT(OWNER VARCHAR, BALANCE NUMBER);
CREATE TABLE TRANSFER(GIVER VARCHAR, TAKER VARCHAR, AMOUNT NUMBER);
INSERT INTO ACCOUNT VALUES ('ann', 100), ('bob', 20), ('cho', 0);

-- The first moves 30 from ann to bob.
BEGIN;
UPDATE ACCOUNT SET BALANCE = BALANCE - 30 WHERE OWNER = 'ann';
UPDATE ACCOUNT SET BALANCE = BALANCE + 30 WHERE OWNER = 'bob';
INSERT INTO TRANSFER VALUES ('ann', 'bob', 30);
SELECT * FROM ACCOUNT;

-- The second sees nothing of it yet, and can't change what the first holds.
!session 2
SELECT * FROM ACCOUNT;
BEGIN;
UPDATE ACCOUNT SET BALANCE = BALANCE + 5;

-- The first is done: both tables change at one moment.
!session 1
COMMIT;

-- The refused statement left the second's transaction open, and now it may.
!session 2
UPDATE ACCOUNT SET BALANCE = BALANCE + 5;
SELECT SUM(BALANCE) AS TOTAL FROM ACCOUNT;

-- That was a mistake: nothing of it is kept.
ROLLBACK;
SELECT * FROM ACCOUNT;
SELECT * FROM TRANSFER;
