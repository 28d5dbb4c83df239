CREATE TABLE D(N NUMBER);
INSERT INTO D VALUES (0), (1), (2), (3), (4), (5), (6), (7), (8), (9);
CREATE TABLE T(K NUMBER);
-- the greater 1,500 numbers come first
INSERT INTO T SELECT 2500 - A.N * 100 - B.N * 10 - C.N FROM D A JOIN D B ON TRUE JOIN D C ON TRUE UNION ALL SELECT 1500 - A.N * 100 - B.N * 10 - C.N FROM D A JOIN D B ON TRUE JOIN D C ON TRUE WHERE A.N < 5;
-- then the others
INSERT INTO T SELECT 1000 - A.N * 100 - B.N * 10 - C.N FROM D A JOIN D B ON TRUE JOIN D C ON TRUE;
-- 2,500 rows of three partitions are listed by size
SELECT * FROM T;
