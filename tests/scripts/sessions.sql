-- the first session
BEGIN;
!session 2
-- another has none open
COMMIT;
BEGIN;
!session 007
-- zeros stand before a number
BEGIN;
!session 2
-- a CR ends the line too
BEGIN;
!session 64
-- the last session
BEGIN;
!session 65
-- one more
BEGIN;
-- what spells nothing is refused before
FROM;
!session 0
-- none
ROLLBACK;
!session 999999999
-- nine digits
ROLLBACK;
!session 7
-- other lines are commands
!session 0000000001
!session 
!session
!session  1
!session 1 
!session -1
!session 1a
!Session 1
!sessions 1
!session 1; BEGIN
!session 1
-- and leave the session as it is
BEGIN;
!session 1
-- the first one again
ROLLBACK;
-- a line behind a command
ROLLBACK; !session 2
ROLLBACK;
!session 7