-- Makes a table, loads the file rentals.csv of this folder, and asks it.
CREATE TABLE rentals (bike INT, station TEXT, day DATE, minutes INT);
LOAD INTO rentals FROM 'rentals.csv';

-- How many there are, and how long they took.
SELECT COUNT(*) AS rentals, SUM(minutes) AS minutes, AVG(minutes), MIN(day), MAX(day)
  FROM rentals;

-- For each station, the busiest first.
SELECT station, COUNT(*) AS rentals, AVG(minutes) AS mean, MAX(minutes) AS longest
  FROM rentals GROUP BY station ORDER BY rentals DESC;

-- The long ones of Linz.
SELECT day, station, bike, minutes FROM rentals
  WHERE station LIKE 'Linz%' AND minutes > 15;

-- The three bikes that were out longest on the first three days.
SELECT bike, SUM(minutes) AS minutes FROM rentals
  WHERE day BETWEEN '2024-05-06' AND '2024-05-08'
  GROUP BY bike ORDER BY minutes DESC LIMIT 3;

-- Parentheses, OR, and a list.
SELECT COUNT(*) FROM rentals WHERE (station = 'Wels' OR bike IN (3, 5)) AND minutes < 15;

-- The last days, each station by itself.
SELECT day, station, COUNT(*) FROM rentals WHERE day >= '2024-05-10'
  GROUP BY day, station ORDER BY day DESC;

-- A row that is written counts from then on, beside the layout of the file.
INSERT INTO rentals VALUES (9, 'Traun', DATE '2024-05-13', 240);
SELECT station, minutes FROM rentals ORDER BY minutes DESC LIMIT 2;

-- No row has this bike.
SELECT COUNT(*), SUM(minutes) FROM rentals WHERE bike = 77;
