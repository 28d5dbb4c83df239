-- Orders, and two tables that keep themselves: totals by item, and the items that sell well. A third one has bills.
CREATE TABLE ORDERS(ID NUMBER, ITEM VARCHAR, AMOUNT NUMBER);
INSERT INTO ORDERS VALUES (1, 'bolt', 250), (2, 'nut', 100), (3, 'bolt', 75);
-- The first is refreshed with what reads it; the second asks for both every minute.
CREATE DYNAMIC TABLE TOTALS TARGET_LAG = DOWNSTREAM WAREHOUSE = W
  AS SELECT ITEM, COUNT(*) AS N, SUM(AMOUNT) AS TOTAL FROM ORDERS GROUP BY ITEM;
CREATE DYNAMIC TABLE BEST TARGET_LAG = '1 minute' WAREHOUSE = W
  AS SELECT ITEM, TOTAL FROM TOTALS WHERE TOTAL > 200;
-- What comes in is not in them yet.
INSERT INTO ORDERS VALUES (4, 'nut', 150), (5, 'screw', 20);
SELECT * FROM BEST;
-- A minute has grid points 48 seconds apart. At the first of them both are refreshed.
!tick 47999
!tick 48000
SELECT * FROM BEST ORDER BY TOTAL DESC;
-- Nothing new came, so the next time there is no data.
!tick 96000
-- A refresh may also be asked for. It takes what is there now.
DELETE FROM ORDERS WHERE ITEM = 'bolt';
ALTER DYNAMIC TABLE BEST REFRESH;
-- A sum beyond 18 digits can't be kept. The refresh fails, and both stay as they are.
INSERT INTO ORDERS VALUES (6, 'nut', 999999999999999999);
!tick 144000
SELECT * FROM TOTALS;
DELETE FROM ORDERS WHERE ID = 6;
!tick 192000
-- While the lower one is suspended neither is refreshed.
ALTER DYNAMIC TABLE TOTALS SUSPEND;
UPDATE ORDERS SET AMOUNT = 500 WHERE ITEM = 'screw';
!tick 240000
ALTER DYNAMIC TABLE BEST REFRESH;
-- Resumed, they go on with the last grid point.
ALTER DYNAMIC TABLE TOTALS RESUME;
!tick
-- A table that reads another can't have a shorter lag, and one that is read can be dropped.
CREATE DYNAMIC TABLE LATEST TARGET_LAG = '59 seconds' AS SELECT ITEM FROM BEST;
DROP DYNAMIC TABLE BEST;
-- Nothing asks for the totals any more.
!tick 1000000
SELECT * FROM TOTALS;
-- A join keeps itself too. What comes on one side meets what stands on the other.
CREATE TABLE PRICES(ITEM VARCHAR, PRICE NUMBER);
INSERT INTO PRICES VALUES ('nut', 2), ('screw', 3);
CREATE DYNAMIC TABLE BILLS TARGET_LAG = '1 minute' REFRESH_MODE = INCREMENTAL WAREHOUSE = W
  AS SELECT O.ID, O.AMOUNT * P.PRICE AS BILL FROM ORDERS O JOIN PRICES P ON O.ITEM = P.ITEM;
SELECT * FROM BILLS;
-- A new order is one more bill, and a new price changes the bills of its item alone.
INSERT INTO ORDERS VALUES (7, 'nut', 10);
!tick 1008000
UPDATE PRICES SET PRICE = 4 WHERE ITEM = 'nut';
!tick 1056000
SELECT * FROM BILLS;
