-- a version, and the way from the one before it
CREATE EXTENSION instants VERSION '0.1';
SELECT to_regproc('instant_at') IS NULL AS is_none;
ALTER EXTENSION instants UPDATE;
SELECT extversion FROM pg_extension WHERE extname = 'instants';
-- answers, and what is wrong
SELECT instant('+00:00', '{rfc3339}', '2021-01-02T04:04:05+01:00');
SELECT instant('-05:30', ARRAY['rfc3339', 'strftime', '%d/%b/%Y:%H:%M:%S %z'], '01/Jan/2021:22:04:07 -0500');
SELECT instant('+00:00', '{strftime,%F %T}', '2021-01-02 03:04:05', assumed => '+01:00');
SELECT line, instant('+00:00', '{rfc3339}', line), instant_fault('+00:00', '{rfc3339}', line)
FROM (VALUES ('2021-02-30T00:00:00Z'), (''), ('2021-01-02T03:04:05Z')) AS given (line);
SELECT instant('+00:00', '{rfc3339}', E'2021-01-02T03:04:05Z\nyesterday');
SELECT instant_fault('+00:00', '{rfc3339}', E'2021-01-02T03:04:05Z\nyesterday');
SELECT instant('+00:00', '{rfc3339}', E'2021-01-02T03:04:05Z\n');
SELECT length(instant('+00:00', '{rfc3339}', repeat(E'\n', 100000)));
SELECT instant('+00:00', '{rfc3339}', repeat('9', 2000000));
-- no answer
SELECT instant('+00:00', '{rfc3339}', NULL) IS NULL AS is_null;
SELECT instant('+25:00', '{rfc3339}', 'x');
SELECT instant('+00:00', '{}', 'x');
SELECT instant('+00:00', '{rfc}', 'x');
SELECT instant('+00:00', '{rfc3339,NULL}', 'x');
SELECT instant('+00:00', ARRAY[E'rfc3339\n'], 'x');
-- words that change from row to row, and words that stay
CREATE TABLE given (target text, sources text[], assumed text, line text);
INSERT INTO given VALUES
('+00:00', '{strftime,%F %T}', '+01:00', '2021-01-02 04:04:05'), ('+00:00', '{strftime,%F %T}', '+01:00', '30 February'),
('+01:00', '{strftime,%F %T}', '+01:00', '2021-01-02 04:04:05'), ('+01:00', '{strftime,%F %T}', '+00:00', '2021-01-02 04:04:05'),
('+01:00', '{strftime,%s}', '+00:00', '1609556645'), ('+00:00', '{strftime,%F %T}', '+01:00', '2021-01-02 04:04:05');
SELECT instant(target, sources, line, assumed), instant('+00:00', sources, line, assumed),
    instant('+00:00', '{strftime,%F %T}', line, '+01:00'), instant_fault('+00:00', '{strftime,%F %T}', line, '+01:00') FROM given;
-- a refusal among them, which a function takes up
CREATE FUNCTION tried(target text, line text) RETURNS text LANGUAGE plpgsql AS $$
BEGIN RETURN instant(target, '{rfc3339}', line); EXCEPTION WHEN invalid_parameter_value THEN RETURN 'refused'; END $$;
SELECT tried(target, '2021-01-02T03:04:05Z')
FROM (VALUES ('+00:00'), ('+25:00'), ('+25:00'), ('+00:00'), ('+01:00')) AS targets (target);
SELECT count(DISTINCT tried((ARRAY['+00:00', '+25:00', '+01:00'])[1 + at % 3], '2021-01-02T03:04:05Z'))
FROM generate_series(1, 3000) AS at;
-- what the planner is told
SELECT proname, provolatile, proisstrict, proparallel FROM pg_proc WHERE proname LIKE 'instant%' ORDER BY proname;
-- an index, a generated column and a condition
CREATE TABLE log (line text, moment text COLLATE "C" GENERATED ALWAYS AS (instant('+00:00', '{rfc3339}', line)) STORED);
INSERT INTO log SELECT to_char(timestamp '2021-01-01' + make_interval(mins => at), 'YYYY-MM-DD"T"HH24:MI:SS"+01:00"')
FROM generate_series(1, 5000) AS at;
CREATE INDEX log_by_moment ON log (instant('+00:00', '{rfc3339}', line) COLLATE "C");
ANALYZE log;
EXPLAIN (COSTS OFF)
SELECT line FROM log WHERE instant('+00:00', '{rfc3339}', line) COLLATE "C" BETWEEN '2021-01-02T03' AND '2021-01-02T03:03';
SELECT line FROM log WHERE instant('+00:00', '{rfc3339}', line) COLLATE "C" BETWEEN '2021-01-02T03' AND '2021-01-02T03:03'
ORDER BY moment;
SELECT count(*), min(moment), max(moment) FROM log;
ALTER TABLE log ADD CHECK (instant_fault('+00:00', '{rfc3339}', line) IS NULL);
INSERT INTO log VALUES ('30 February');
-- several processes
SET parallel_setup_cost = 0;
SET parallel_tuple_cost = 0;
SET min_parallel_table_scan_size = 0;
SET max_parallel_workers_per_gather = 2;
EXPLAIN (COSTS OFF) SELECT count(*) FROM log WHERE instant('+01:00', '{rfc3339}', line) > '2021-01-02';
SELECT count(*) FROM log WHERE instant('+01:00', '{rfc3339}', line) > '2021-01-02';
-- moments: rounded down, at both ends of what moments are, and beyond these; NULL for a fault
SET timezone = 'UTC';
SET datestyle = 'ISO, MDY';
SELECT line, instant_at('{rfc3339}', line) FROM (VALUES
('2021-01-02T04:04:05+01:00'), ('2021-01-02T03:04:05.123456999Z'), ('1969-12-31T23:59:59.9999999Z'), ('1999-12-31T23:59:59.000000001Z'),
('2016-12-31T23:59:60Z'), ('0000-01-01T00:00:00Z'), ('0000-01-01T00:00:00+00:01'), ('9999-12-31T23:59:59.999999999Z'),
('9999-12-31T23:59:59-00:01'), ('2021-02-30T00:00:00Z'), ('infinity'), ('-infinity'), (''), (E'\n'), (E'2021-01-02T03:04:05Z\n'),
(E'2021-01-02T03:04:05Z\n2021-01-02T03:04:05Z')) AS given (line);
SELECT instant_at('{iso8601}', '+294276-12-31T23:59:59.999999Z') IS NULL AS latest_is_none,
    instant_at('{iso8601}', '-004712-11-24T00:00:00Z') IS NULL AS earliest_is_none;
SELECT instant_at('{rfc3339}', NULL) IS NULL AND instant_at('{rfc3339}', repeat('9', 2000000)) IS NULL AS is_null;
-- an offset is assumed, and no zone: a zone has other offsets from day to day
SELECT instant_at('{strftime,%F %T}', '2021-01-02 03:04:05', assumed => '+01:00');
SELECT instant_at('{strftime,%F %T}', '2021-01-02 03:04:05');
SELECT instant_at('{strftime,%F %T}', '2021-01-02 03:04:05', assumed => 'Europe/Berlin');
SELECT instant_at('{}', 'x');
-- words that change from row to row, and words that stay
SELECT instant_at(sources, line, assumed), instant_at('{strftime,%F %T}', line, '+01:00') FROM given;
-- the settings of a session decide how a moment is shown, and not which it is
SET timezone = 'Asia/Kolkata';
SET datestyle = 'SQL, DMY';
SELECT instant_at('{strftime,%F %T}', '2021-01-02 03:04:05', '+01:00'),
    instant_at('{strftime,%F %T}', '2021-01-02 03:04:05', '+01:00') = '2021-01-02 02:04:05+00' AS is_same;
RESET datestyle;
SET timezone = 'UTC';
-- a generated column, and indexes by the column and by the call; what names no moment ends neither
CREATE TABLE moments (line text, moment timestamptz GENERATED ALWAYS AS (instant_at('{rfc3339}', line)) STORED);
INSERT INTO moments SELECT line FROM log UNION ALL VALUES ('30 February'), (NULL);
CREATE INDEX moments_by_column ON moments (moment);
CREATE INDEX moments_by_call ON moments (instant_at('{rfc3339}', line));
ANALYZE moments;
EXPLAIN (COSTS OFF) SELECT line FROM moments WHERE moment BETWEEN '2021-01-02 03:00+00' AND '2021-01-02 03:02+00';
SELECT line FROM moments WHERE moment BETWEEN '2021-01-02 03:00+00' AND '2021-01-02 03:02+00' ORDER BY moment;
EXPLAIN (COSTS OFF) SELECT line FROM moments WHERE instant_at('{rfc3339}', line) < '2020-12-31 23:03+00';
SELECT line FROM moments WHERE instant_at('{rfc3339}', line) < '2020-12-31 23:03+00' ORDER BY line;
SELECT count(*), count(moment), count(*) FILTER (WHERE moment = instant('+00:00', '{rfc3339}', line)::timestamptz) AS same FROM moments
WHERE instant_fault('+00:00', '{rfc3339}', line) IS NULL;
