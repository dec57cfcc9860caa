\echo Use "ALTER EXTENSION instants UPDATE TO '0.2'" to load this file. \quit

CREATE FUNCTION instant_at(sources text[], line text, assumed text DEFAULT '-') RETURNS timestamptz
AS 'MODULE_PATHNAME', 'instant_at' LANGUAGE C IMMUTABLE STRICT PARALLEL SAFE COST 1000;

COMMENT ON FUNCTION instant_at(text[], text, text) IS
'the moment of a line, rounded down to microseconds, or NULL where it has none';
