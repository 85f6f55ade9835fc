-- Shops by a list of regions: a value that no list has is refused, and so is a row outside of the partitions that a statement names.
CREATE TABLE shops (id INT, region INT, name VARBINARY(20))
PARTITION BY LIST (region) (
  PARTITION north VALUES IN (1, 2),
  PARTITION south VALUES IN (3, 4),
  PARTITION nowhere VALUES IN (NULL)
);
INSERT INTO shops VALUES (1, 1, 'Harbour'), (2, 4, 'Market'), (3, NULL, 'Online');
INSERT INTO shops VALUES (4, 5, 'Island');
INSERT INTO shops PARTITION (north) VALUES (5, 2, 'Hill'), (6, 3, 'Valley');
SELECT name, region FROM shops;
SELECT name FROM shops PARTITION (south, nowhere) ORDER BY name;
CREATE TABLE branches LIKE shops;
SELECT * FROM branches;
DROP TABLE branches;
SHOW CREATE TABLE shops;
