BEGIN;
!session 2