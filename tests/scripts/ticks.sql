-- the first stamp is 1, and a transaction goes by its stamp
BEGIN;
ROLLBACK;
-- a tick takes a stamp
!tick
-- so the next one is greater by two
BEGIN;
ROLLBACK;
-- a reading
!tick 50
-- the next stamp is behind it
BEGIN;
ROLLBACK;
-- an earlier one
!tick 3
-- stamps rise all the same
BEGIN;
ROLLBACK;
-- a later one
!tick 900
-- a refused command takes a stamp
COMMIT;
-- so the next one is greater
BEGIN;
ROLLBACK;
!session 2
-- the line of a session takes none
BEGIN;
ROLLBACK;
!session 1
-- a tick without a reading keeps the last
!tick
-- as the stamps show
BEGIN;
ROLLBACK;
-- one space stands before a reading, nothing behind it, and no letter is great
!tick  5000
!tick 5000 
!TICK 5000
!ticks
!
!tick -5
!tick 5000a
!tick 5000;'--
!tick 0000000000000005000
-- these were commands, and no reading was set
BEGIN;
ROLLBACK;
-- 18 digits
!tick 999999999999999999
-- the greatest stamp that a script comes to begins here
BEGIN;
ROLLBACK;
-- the last line may end with the script
COMMIT;
!tick 7