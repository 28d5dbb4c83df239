CREATE TABLE T(K NUMBER);
CREATE TASK A SCHEDULE = '1 MINUTE' AS DELETE FROM NOWHERE;
-- runs that fail in a row are counted
ALTER TASK A RESUME;
EXECUTE TASK A;
!tick
EXECUTE TASK A;
!tick
EXECUTE TASK A;
!tick
EXECUTE TASK A;
!tick
EXECUTE TASK A;
!tick
EXECUTE TASK A;
!tick
EXECUTE TASK A;
!tick
EXECUTE TASK A;
!tick
EXECUTE TASK A;
!tick
-- the tenth suspends the root
EXECUTE TASK A;
!tick
-- so it is due no more
!tick 600000
-- further ones aren't counted
EXECUTE TASK A;
!tick
-- RESUME counts from 0 again
ALTER TASK A RESUME;
EXECUTE TASK A;
!tick
