SELECT 'abc; BEGIN;
!tick
