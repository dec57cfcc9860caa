\echo Use "CREATE EXTENSION instants" to load this file. \quit

CREATE FUNCTION instant(target text, sources text[], line text, assumed text DEFAULT '-') RETURNS text
AS 'MODULE_PATHNAME', 'instant' LANGUAGE C IMMUTABLE STRICT PARALLEL SAFE COST 1000;

COMMENT ON FUNCTION instant(text, text[], text, text) IS
'the moment of a line at the target offset, or its fault behind "! "';

CREATE FUNCTION instant_fault(target text, sources text[], line text, assumed text DEFAULT '-') RETURNS text
AS 'MODULE_PATHNAME', 'instant_fault' LANGUAGE C IMMUTABLE STRICT PARALLEL SAFE COST 1000;

COMMENT ON FUNCTION instant_fault(text, text[], text, text) IS
'what is wrong with a line, or NULL where it has a moment';
