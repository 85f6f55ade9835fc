CREATE TABLE readings (celsius INT);
INSERT INTO readings VALUES (21);
INSERT INTO readings VALUES (-4);
INSERT INTO readings VALUES (2147483648);
SELECT * FROM readings;
SELECT * FROM forecasts;
