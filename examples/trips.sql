-- Makes a table, loads the file trips.csv of this folder, and tells how it is laid out.
CREATE TABLE trips (bike INT, minutes INT, city TEXT);
LOAD INTO trips FROM 'trips.csv';
DESCRIBE trips;
