\echo Use "CREATE EXTENSION ulocale" to load this file. \quit

CREATE TYPE ulocale;

CREATE FUNCTION ulocale_in(cstring) RETURNS ulocale AS 'MODULE_PATHNAME' LANGUAGE C IMMUTABLE STRICT PARALLEL SAFE;
CREATE FUNCTION ulocale_out(ulocale) RETURNS cstring AS 'textout' LANGUAGE internal IMMUTABLE STRICT PARALLEL SAFE;
CREATE FUNCTION ulocale_recv(internal) RETURNS ulocale AS 'MODULE_PATHNAME' LANGUAGE C STABLE STRICT PARALLEL SAFE;
CREATE FUNCTION ulocale_send(ulocale) RETURNS bytea AS 'textsend' LANGUAGE internal STABLE STRICT PARALLEL SAFE;
CREATE TYPE ulocale (INPUT = ulocale_in, OUTPUT = ulocale_out, RECEIVE = ulocale_recv, SEND = ulocale_send,
    INTERNALLENGTH = VARIABLE, STORAGE = extended);

-- A value is its normal text, so it is a text as it stands. No cast is implicit. So a ulocale against a text is an error, and
-- never a comparison of bytes with a text that was not normalized.
CREATE FUNCTION ulocale(text) RETURNS ulocale AS 'MODULE_PATHNAME', 'ulocale_of_text'
    LANGUAGE C IMMUTABLE STRICT PARALLEL SAFE;
CREATE CAST (text AS ulocale) WITH FUNCTION ulocale(text) AS ASSIGNMENT;
CREATE CAST (varchar AS ulocale) WITH FUNCTION ulocale(text) AS ASSIGNMENT;
CREATE CAST (ulocale AS text) WITHOUT FUNCTION AS ASSIGNMENT;
CREATE CAST (ulocale AS varchar) WITHOUT FUNCTION AS ASSIGNMENT;

-- Operators: the bytes of normal texts, by the functions of bytea.
CREATE FUNCTION ulocale_eq(ulocale, ulocale) RETURNS bool
    AS 'byteaeq' LANGUAGE internal IMMUTABLE STRICT PARALLEL SAFE LEAKPROOF;
CREATE FUNCTION ulocale_ne(ulocale, ulocale) RETURNS bool
    AS 'byteane' LANGUAGE internal IMMUTABLE STRICT PARALLEL SAFE LEAKPROOF;
CREATE FUNCTION ulocale_lt(ulocale, ulocale) RETURNS bool
    AS 'bytealt' LANGUAGE internal IMMUTABLE STRICT PARALLEL SAFE LEAKPROOF;
CREATE FUNCTION ulocale_le(ulocale, ulocale) RETURNS bool
    AS 'byteale' LANGUAGE internal IMMUTABLE STRICT PARALLEL SAFE LEAKPROOF;
CREATE FUNCTION ulocale_gt(ulocale, ulocale) RETURNS bool
    AS 'byteagt' LANGUAGE internal IMMUTABLE STRICT PARALLEL SAFE LEAKPROOF;
CREATE FUNCTION ulocale_ge(ulocale, ulocale) RETURNS bool
    AS 'byteage' LANGUAGE internal IMMUTABLE STRICT PARALLEL SAFE LEAKPROOF;
CREATE FUNCTION ulocale_cmp(ulocale, ulocale) RETURNS int4
    AS 'byteacmp' LANGUAGE internal IMMUTABLE STRICT PARALLEL SAFE LEAKPROOF;
CREATE FUNCTION ulocale_sortsupport(internal) RETURNS void
    AS 'bytea_sortsupport' LANGUAGE internal IMMUTABLE STRICT PARALLEL SAFE;
CREATE FUNCTION ulocale_hash(ulocale) RETURNS int4
    AS 'hashvarlena' LANGUAGE internal IMMUTABLE STRICT PARALLEL SAFE LEAKPROOF;
CREATE FUNCTION ulocale_hash_extended(ulocale, int8) RETURNS int8
    AS 'hashvarlenaextended' LANGUAGE internal IMMUTABLE STRICT PARALLEL SAFE LEAKPROOF;

CREATE OPERATOR = (LEFTARG = ulocale, RIGHTARG = ulocale, FUNCTION = ulocale_eq, COMMUTATOR = =, NEGATOR = <>,
    RESTRICT = eqsel, JOIN = eqjoinsel, HASHES, MERGES);
CREATE OPERATOR <> (LEFTARG = ulocale, RIGHTARG = ulocale, FUNCTION = ulocale_ne, COMMUTATOR = <>, NEGATOR = =,
    RESTRICT = neqsel, JOIN = neqjoinsel);
CREATE OPERATOR < (LEFTARG = ulocale, RIGHTARG = ulocale, FUNCTION = ulocale_lt, COMMUTATOR = >, NEGATOR = >=,
    RESTRICT = scalarltsel, JOIN = scalarltjoinsel);
CREATE OPERATOR <= (LEFTARG = ulocale, RIGHTARG = ulocale, FUNCTION = ulocale_le, COMMUTATOR = >=, NEGATOR = >,
    RESTRICT = scalarlesel, JOIN = scalarlejoinsel);
CREATE OPERATOR > (LEFTARG = ulocale, RIGHTARG = ulocale, FUNCTION = ulocale_gt, COMMUTATOR = <, NEGATOR = <=,
    RESTRICT = scalargtsel, JOIN = scalargtjoinsel);
CREATE OPERATOR >= (LEFTARG = ulocale, RIGHTARG = ulocale, FUNCTION = ulocale_ge, COMMUTATOR = <=, NEGATOR = <,
    RESTRICT = scalargesel, JOIN = scalargejoinsel);

CREATE OPERATOR CLASS ulocale_ops DEFAULT FOR TYPE ulocale USING btree AS
    OPERATOR 1 <, OPERATOR 2 <=, OPERATOR 3 =, OPERATOR 4 >=, OPERATOR 5 >,
    FUNCTION 1 ulocale_cmp(ulocale, ulocale), FUNCTION 2 ulocale_sortsupport(internal), FUNCTION 4 btequalimage(oid);
CREATE OPERATOR CLASS ulocale_ops DEFAULT FOR TYPE ulocale USING hash AS
    OPERATOR 1 =, FUNCTION 1 ulocale_hash(ulocale), FUNCTION 2 ulocale_hash_extended(ulocale, int8);

CREATE FUNCTION ulocale_larger(ulocale, ulocale) RETURNS ulocale
    AS 'MODULE_PATHNAME' LANGUAGE C IMMUTABLE STRICT PARALLEL SAFE;
CREATE FUNCTION ulocale_smaller(ulocale, ulocale) RETURNS ulocale
    AS 'MODULE_PATHNAME' LANGUAGE C IMMUTABLE STRICT PARALLEL SAFE;
CREATE AGGREGATE max(ulocale) (SFUNC = ulocale_larger, STYPE = ulocale,
    COMBINEFUNC = ulocale_larger, SORTOP = >, PARALLEL = SAFE);
CREATE AGGREGATE min(ulocale) (SFUNC = ulocale_smaller, STYPE = ulocale,
    COMBINEFUNC = ulocale_smaller, SORTOP = <, PARALLEL = SAFE);

-- Texts that may be no locale.
CREATE FUNCTION ulocale_is_valid(text) RETURNS bool AS 'MODULE_PATHNAME' LANGUAGE C IMMUTABLE STRICT PARALLEL SAFE;
CREATE FUNCTION ulocale_fault(text, OUT reason text, OUT place int, OUT length int, OUT expected text, OUT hint text)
    AS 'MODULE_PATHNAME' LANGUAGE C IMMUTABLE STRICT PARALLEL SAFE;

-- Parts. None fails on any value.
CREATE FUNCTION language(ulocale) RETURNS text
    AS 'MODULE_PATHNAME', 'ulocale_language' LANGUAGE C IMMUTABLE STRICT PARALLEL SAFE LEAKPROOF;
CREATE FUNCTION script(ulocale) RETURNS text
    AS 'MODULE_PATHNAME', 'ulocale_script' LANGUAGE C IMMUTABLE STRICT PARALLEL SAFE LEAKPROOF;
CREATE FUNCTION region(ulocale) RETURNS text
    AS 'MODULE_PATHNAME', 'ulocale_region' LANGUAGE C IMMUTABLE STRICT PARALLEL SAFE LEAKPROOF;
CREATE FUNCTION variants(ulocale) RETURNS text[]
    AS 'MODULE_PATHNAME', 'ulocale_variants' LANGUAGE C IMMUTABLE STRICT PARALLEL SAFE LEAKPROOF;
CREATE FUNCTION base_name(ulocale) RETURNS ulocale
    AS 'MODULE_PATHNAME', 'ulocale_base_name' LANGUAGE C IMMUTABLE STRICT PARALLEL SAFE LEAKPROOF;
CREATE FUNCTION parent(ulocale) RETURNS ulocale
    AS 'MODULE_PATHNAME', 'ulocale_parent' LANGUAGE C IMMUTABLE STRICT PARALLEL SAFE LEAKPROOF;
CREATE FUNCTION keyword(ulocale, key text) RETURNS text
    AS 'MODULE_PATHNAME', 'ulocale_keyword' LANGUAGE C IMMUTABLE STRICT PARALLEL SAFE LEAKPROOF;
CREATE FUNCTION keywords(ulocale, OUT key text, OUT value text) RETURNS SETOF record
    AS 'MODULE_PATHNAME', 'ulocale_keywords' LANGUAGE C IMMUTABLE STRICT PARALLEL SAFE ROWS 2;

-- Ranges: en-US-u-ca-buddhist <@ en.
CREATE FUNCTION ulocale_matches_support(internal) RETURNS internal
    AS 'MODULE_PATHNAME' LANGUAGE C IMMUTABLE STRICT PARALLEL SAFE;
CREATE FUNCTION matches(ulocale, range ulocale) RETURNS bool AS 'MODULE_PATHNAME', 'ulocale_matches'
    LANGUAGE C IMMUTABLE STRICT PARALLEL SAFE LEAKPROOF SUPPORT ulocale_matches_support;
CREATE OPERATOR <@ (LEFTARG = ulocale, RIGHTARG = ulocale, FUNCTION = matches, RESTRICT = matchingsel, JOIN = matchingjoinsel);
