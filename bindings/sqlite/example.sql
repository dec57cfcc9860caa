-- Lines of three kinds, on one timeline: run in the folder of instant.so as `sqlite3 < example.sql`.
.load ./instant
CREATE TABLE lines (line TEXT NOT NULL);
INSERT INTO lines VALUES ('Sat, 02 Jan 2021 03:04:06 +0000'), ('01/Jan/2021:22:04:07 -0500'), ('2021-01-02T04:04:05+01:00');

-- a table whose key is the moment
CREATE TABLE log (moment TEXT PRIMARY KEY, line TEXT NOT NULL) WITHOUT ROWID;
INSERT INTO log
SELECT instant('+00:00', 'rfc3339', 'rfc2822', 'strftime', '%d/%b/%Y:%H:%M:%S %z', line), line FROM lines;
SELECT * FROM log WHERE moment >= '2021-01-02T03:04:06';

-- or a key of the table of lines
CREATE INDEX lines_by_moment
ON lines (instant('+00:00', 'rfc3339', 'rfc2822', 'strftime', '%d/%b/%Y:%H:%M:%S %z', line));

-- or columns of it, which also tell what is wrong with a line
CREATE TABLE told (
    line TEXT NOT NULL,
    moment TEXT AS (instant('+00:00', '+00:00', 'rfc3339', 'strftime', '%F %T', line)) STORED,
    fault TEXT AS (instant_fault('+00:00', '+00:00', 'rfc3339', 'strftime', '%F %T', line)) STORED
);
INSERT INTO told VALUES ('2021-01-02 03:04:05'), ('yesterday');
SELECT moment, fault FROM told;
