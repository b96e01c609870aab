-- Makes a table, loads the file trips.csv of this folder, and asks it.
CREATE TABLE trips (bike INT, minutes INT, city TEXT);
LOAD INTO trips FROM 'trips.csv';

-- Trips of more than an hour.
SELECT COUNT(*) AS trips, MIN(minutes), MAX(minutes) FROM trips WHERE minutes > 60;

-- For each city, the busiest first.
SELECT city, COUNT(*) AS trips, AVG(minutes) AS mean FROM trips
  GROUP BY city ORDER BY trips DESC;

-- The bikes with the longest time on long trips.
SELECT bike, COUNT(*) AS trips, SUM(minutes) AS total FROM trips
  WHERE minutes > 120 AND (city = 'Wels' OR bike BETWEEN 100 AND 199)
  GROUP BY bike ORDER BY total DESC LIMIT 3;

-- Long trips as they are.
SELECT minutes, bike, city FROM trips
  WHERE minutes > 170 AND bike < 20 ORDER BY minutes DESC LIMIT 3;
