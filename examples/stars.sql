-- A table of sales, and three that say more of its stores, products and days.
CREATE TABLE stores (store INT PRIMARY KEY, city TEXT, region TEXT);
CREATE TABLE products (product INT PRIMARY KEY, name TEXT, kind TEXT);
CREATE TABLE days (day DATE PRIMARY KEY, month INT, weekday TEXT);
CREATE TABLE sales (s_store INT, s_product INT, s_day DATE, pieces INT, price INT);
LOAD INTO stores FROM 'stores.csv';
LOAD INTO products FROM 'products.csv';
LOAD INTO days FROM 'days.csv';
LOAD INTO sales FROM 'sales.csv';

-- What each region took. Sales of a store that isn't in the table of stores don't count.
SELECT region, SUM(pieces*price) AS revenue FROM sales, stores
  WHERE s_store = store GROUP BY region ORDER BY revenue DESC;

-- Pieces by city and kind in one region; two stores of one city are together.
SELECT city, kind, SUM(pieces) AS pieces FROM sales, stores, products
  WHERE s_store = store AND s_product = product AND region = 'South'
  GROUP BY city, kind;

-- All three: bread and fruit, by month and product.
SELECT month, name, SUM(pieces) AS pieces, MAX(price) FROM sales, stores, products, days
  WHERE s_store = store AND s_product = product AND s_day = day
  AND kind IN ('bread', 'fruit') AND region = 'North'
  GROUP BY month, name ORDER BY month, pieces DESC;

-- Weekdays that begin with an S.
SELECT weekday, SUM(pieces*price) AS revenue FROM sales, days
  WHERE s_day = day AND weekday LIKE 'S%' GROUP BY weekday;

-- The largest sales, as they are.
SELECT s_day, city, name, pieces FROM sales, stores, products
  WHERE s_store = store AND s_product = product AND pieces >= 5
  ORDER BY pieces DESC LIMIT 5;

-- A store that comes later brings its sales along.
INSERT INTO stores VALUES (6, 'Bregenz', 'West');
SELECT region, SUM(pieces*price) AS revenue FROM sales, stores
  WHERE s_store = store AND region <> 'South' GROUP BY region;
