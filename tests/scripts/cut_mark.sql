BEGIN;
!sess