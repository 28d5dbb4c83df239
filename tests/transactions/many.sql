CREATE TABLE T(K NUMBER);
!session 1
BEGIN;
!session 2
BEGIN;
!session 3
BEGIN;
!session 4
BEGIN;
!session 5
BEGIN;
!session 6
BEGIN;
!session 7
BEGIN;
!session 8
BEGIN;
!session 9
BEGIN;
!session 10
BEGIN;
!session 11
BEGIN;
!session 12
BEGIN;
!session 13
BEGIN;
!session 14
BEGIN;
!session 15
BEGIN;
!session 16
BEGIN;
!session 17
BEGIN;
!session 18
BEGIN;
!session 19
BEGIN;
!session 20
BEGIN;
!session 21
BEGIN;
!session 22
BEGIN;
!session 23
BEGIN;
!session 24
BEGIN;
!session 25
BEGIN;
!session 26
BEGIN;
!session 27
BEGIN;
!session 28
BEGIN;
!session 29
BEGIN;
!session 30
BEGIN;
!session 31
BEGIN;
!session 32
BEGIN;
!session 33
BEGIN;
!session 34
BEGIN;
!session 35
BEGIN;
!session 36
BEGIN;
!session 37
BEGIN;
!session 38
BEGIN;
!session 39
BEGIN;
!session 40
BEGIN;
!session 41
BEGIN;
!session 42
BEGIN;
!session 43
BEGIN;
!session 44
BEGIN;
!session 45
BEGIN;
!session 46
BEGIN;
!session 47
BEGIN;
!session 48
BEGIN;
!session 49
BEGIN;
!session 50
BEGIN;
!session 51
BEGIN;
!session 52
BEGIN;
!session 53
BEGIN;
!session 54
BEGIN;
!session 55
BEGIN;
!session 56
BEGIN;
!session 57
BEGIN;
!session 58
BEGIN;
!session 59
BEGIN;
!session 60
BEGIN;
!session 61
BEGIN;
!session 62
BEGIN;
!session 63
BEGIN;
!session 64
BEGIN;
-- the last session may hold a table
INSERT INTO T VALUES (64);
!session 1
-- which the first one finds held
INSERT INTO T VALUES (1);
-- its own transaction is open still
BEGIN;
!session 33
-- and that of one between
BEGIN;
-- nobody else sees the row
SELECT * FROM T;
!session 64
-- it is committed
COMMIT;
!session 63
-- another session sees it, in a transaction that began before
INSERT INTO T SELECT K - 1 FROM T;
!session 1
-- and others what is committed
SELECT * FROM T;
!session 1
ROLLBACK;
!session 2
ROLLBACK;
!session 3
ROLLBACK;
!session 4
ROLLBACK;
!session 5
ROLLBACK;
!session 6
ROLLBACK;
!session 7
ROLLBACK;
!session 8
ROLLBACK;
!session 9
ROLLBACK;
!session 10
ROLLBACK;
!session 11
ROLLBACK;
!session 12
ROLLBACK;
!session 13
ROLLBACK;
!session 14
ROLLBACK;
!session 15
ROLLBACK;
!session 16
ROLLBACK;
!session 17
ROLLBACK;
!session 18
ROLLBACK;
!session 19
ROLLBACK;
!session 20
ROLLBACK;
!session 21
ROLLBACK;
!session 22
ROLLBACK;
!session 23
ROLLBACK;
!session 24
ROLLBACK;
!session 25
ROLLBACK;
!session 26
ROLLBACK;
!session 27
ROLLBACK;
!session 28
ROLLBACK;
!session 29
ROLLBACK;
!session 30
ROLLBACK;
!session 31
ROLLBACK;
!session 32
ROLLBACK;
!session 33
ROLLBACK;
!session 34
ROLLBACK;
!session 35
ROLLBACK;
!session 36
ROLLBACK;
!session 37
ROLLBACK;
!session 38
ROLLBACK;
!session 39
ROLLBACK;
!session 40
ROLLBACK;
!session 41
ROLLBACK;
!session 42
ROLLBACK;
!session 43
ROLLBACK;
!session 44
ROLLBACK;
!session 45
ROLLBACK;
!session 46
ROLLBACK;
!session 47
ROLLBACK;
!session 48
ROLLBACK;
!session 49
ROLLBACK;
!session 50
ROLLBACK;
!session 51
ROLLBACK;
!session 52
ROLLBACK;
!session 53
ROLLBACK;
!session 54
ROLLBACK;
!session 55
ROLLBACK;
!session 56
ROLLBACK;
!session 57
ROLLBACK;
!session 58
ROLLBACK;
!session 59
ROLLBACK;
!session 60
ROLLBACK;
!session 61
ROLLBACK;
!session 62
ROLLBACK;
!session 63
-- the last transaction ends
COMMIT;
!session 62
-- there is none more
COMMIT;
-- both rows are there
SELECT * FROM T;
