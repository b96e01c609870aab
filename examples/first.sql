-- Three pieces: a statement, no statement, and a query over a table without rows.
CREATE TABLE rides (bike INT, minutes INT);
SELECT;
SELECT bike FROM rides WHERE minutes > 15
