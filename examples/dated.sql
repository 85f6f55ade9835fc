-- A table of events by day: old partitions can go as a whole, and a PARTITION list reads one of them alone.
CREATE TABLE events (
  id INT NOT NULL,
  happened DATE NOT NULL,
  note VARBINARY(40) DEFAULT 'none',
  PRIMARY KEY (id, happened)
)
PARTITION BY RANGE (TO_DAYS(happened)) (
  PARTITION p2024 VALUES LESS THAN (TO_DAYS('2025-01-01')),
  PARTITION p2025 VALUES LESS THAN (TO_DAYS('2026-01-01')),
  PARTITION later VALUES LESS THAN MAXVALUE
);
INSERT INTO events VALUES (1, '2024-02-29', 'leap day'), (2, '2025-06-30', 'half time'), (3, '2026-01-01', DEFAULT);
INSERT INTO events (happened, id) VALUES ('2025-12-31', 4);
INSERT INTO events VALUES (5, '2025-06-30', 'new'), (2, '2025-06-30', 'twice');
SELECT * FROM events ORDER BY happened DESC;
SELECT id, note FROM events PARTITION (p2025);
SELECT id FROM events WHERE happened < '2025-06-30';
