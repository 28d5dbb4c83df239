 ;	;
;; 
-- small letters, and blanks in a command
create
table	t (k
varchar);
-- a ; in a text
INSERT INTO T VALUES (';'), ('a'';b'), ('--;'), ('/*;');
-- in a name
CREATE TABLE "x;y"("k;" NUMBER);
-- the other quote
INSERT INTO T VALUES ('";');
-- in a comment
SELECT * /* ; ' */ FROM "x;y" -- ; " '
;
-- what was read
SELECT * FROM T;
/* ; ' " */;/**/ /***/ ---a;b'
-- two commands in a line
SELECT * FROM "x;y"; DROP TABLE "x;y";
-- an end of a comment alone
*/;
-- signs that begin none
/;
-;
- -;
-- a backslash ends no quote early
SELECT '\';
-- a quoted name in small letters
CREATE TABLE "a"(K VARCHAR);
-- is another one
SELECT * FROM A;
-- a mark inside a command is no line
SELECT *
!tick
FROM T;
-- the last command may have no ;
SELECT * FROM "a" -- to its end
