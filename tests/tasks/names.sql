CREATE TABLE T(K NUMBER);
CREATE STREAM S ON TABLE T;
CREATE TASK A AS DELETE FROM T;
-- a task's name is that of no other task
CREATE TASK A AS DELETE FROM T;
-- of no table
CREATE TASK T AS DELETE FROM T;
-- and of no stream
CREATE TASK S AS DELETE FROM T;
-- a stream doesn't take a task's name either
CREATE STREAM A ON TABLE T;
-- a table takes its place by no OR REPLACE
CREATE OR REPLACE TABLE A(K NUMBER);
-- in small letters and quotes it is another name
CREATE TASK "a" AS DELETE FROM T;
-- without quotes the same one
CREATE TASK a AS DELETE FROM T;
-- a name behind AFTER that nothing has
CREATE TASK B AFTER NOPE AS DELETE FROM T;
-- of several the first in the text
CREATE TASK B AFTER A, NOPE, NONE AS DELETE FROM T;
-- the new task's own name isn't there yet
CREATE TASK B AFTER B AS DELETE FROM T;
-- they are looked up before the new name
CREATE TASK A AFTER NOPE AS DELETE FROM T;
-- and the new name before their kinds
CREATE TASK A AFTER T AS DELETE FROM T;
-- each name is looked up before the kind of any
CREATE TASK B AFTER T, NOPE AS DELETE FROM T;
-- no task follows a stream
CREATE TASK B AFTER S AS DELETE FROM T;
-- nor a table beside a task
CREATE TASK B AFTER A, T AS DELETE FROM T;
CREATE TASK R AS DELETE FROM T;
CREATE TASK D AFTER A AS DELETE FROM T;
-- a root and a task behind it have one root
CREATE TASK E AFTER D, A AS DELETE FROM T;
-- two roots are two graphs, and the second is named
CREATE TASK F AFTER R, A AS DELETE FROM T;
-- the graph is that of the first name, whichever it is
CREATE TASK F AFTER A, R AS DELETE FROM T;
-- a task belongs to its root's graph
CREATE TASK F AFTER D, E, R AS DELETE FROM T;
-- of several the first in the text that isn't of the first one's graph
CREATE TASK F AFTER R, R, E, T AS DELETE FROM T;
-- no row goes into a task
INSERT INTO A VALUES (1);
-- a stream stands on no task
CREATE STREAM X ON TABLE A;
-- a task isn't dropped as a table
DROP TABLE A;
-- nor as a stream
DROP STREAM A;
-- it isn't asked for rows
SELECT SYSTEM$STREAM_HAS_DATA('A');
-- a stream isn't suspended
ALTER TASK S SUSPEND;
-- nor a table executed
EXECUTE TASK T;
-- nor a table dropped as a task
DROP TASK T;
-- a name that nothing has isn't suspended
ALTER TASK NOPE SUSPEND;
-- nor executed
EXECUTE TASK NOPE;
-- nor dropped
DROP TASK NOPE;
-- and nothing of all this was made
DROP TASK B;
