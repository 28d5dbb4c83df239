-- a reading has at most 18 digits
!tick 999999999999999999
-- the next stamp is behind it
BEGIN;
ROLLBACK;
-- a longer one is no line of a script
!tick 4611686018427387903
-- and takes no stamp
BEGIN;
