-- CREATE EXTENSION runs this file. NULL gives NULL.

-- Reads a text, rounded down to microseconds. The interval has no days, months or years: a day is
-- 24 hours.
CREATE FUNCTION parse_duration(text) RETURNS interval
    AS 'MODULE_PATHNAME', 'sql_parse_duration' LANGUAGE C IMMUTABLE STRICT PARALLEL SAFE;

-- Reads a text into nanoseconds. A duration of 2^63 nanoseconds or more is refused.
CREATE FUNCTION parse_duration_ns(text) RETURNS bigint
    AS 'MODULE_PATHNAME', 'sql_parse_duration_ns' LANGUAGE C IMMUTABLE STRICT PARALLEL SAFE;

-- Returns the line that says why a text is refused, or NULL if it is read.
CREATE FUNCTION duration_error(text) RETURNS text
    AS 'MODULE_PATHNAME', 'sql_duration_error' LANGUAGE C IMMUTABLE STRICT PARALLEL SAFE;

-- Prints an interval, whose days count 24 hours. If it is negative, or has months or years, it is
-- refused.
CREATE FUNCTION format_duration(interval) RETURNS text
    AS 'MODULE_PATHNAME', 'sql_format_duration' LANGUAGE C IMMUTABLE STRICT PARALLEL SAFE;

-- Prints nanoseconds.
CREATE FUNCTION format_duration_ns(bigint) RETURNS text
    AS 'MODULE_PATHNAME', 'sql_format_duration_ns' LANGUAGE C IMMUTABLE STRICT PARALLEL SAFE;
