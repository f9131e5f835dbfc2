-- Each request of the library for memory refused in turn: out of memory (53200), or the answer as with memory. After each
-- statement the library holds nothing.
CREATE EXTENSION ulocale;
CREATE FUNCTION ulocale_try_refuse(int8) RETURNS void AS '$libdir/ulocale' LANGUAGE C STRICT;
CREATE FUNCTION ulocale_try_refused() RETURNS int8 AS '$libdir/ulocale' LANGUAGE C STRICT;
CREATE FUNCTION ulocale_try_live() RETURNS int8 AS '$libdir/ulocale' LANGUAGE C STRICT;
-- What the statement answers where so many requests are granted before one is refused.
CREATE FUNCTION answer(statement text, granted int8, OUT said text, OUT is_refused bool) LANGUAGE plpgsql AS $$
BEGIN
    PERFORM ulocale_try_refuse(granted);
    BEGIN
        EXECUTE statement INTO said;
    EXCEPTION WHEN OTHERS THEN
        said := SQLSTATE;
    END;
    is_refused := ulocale_try_refused() > 0;
    PERFORM ulocale_try_refuse(-1);
END $$;
CREATE FUNCTION refuse_each(statement text, OUT allocates bool, OUT wrong int8, OUT held int8) LANGUAGE plpgsql AS $$
DECLARE
    wanted text := (answer(statement, -1)).said;
    given record;
BEGIN
    wrong := 0;
    held := ulocale_try_live();
    FOR granted IN 0 .. 1000 LOOP
        given := answer(statement, granted);
        held := held + ulocale_try_live();
        EXIT WHEN NOT given.is_refused;
        wrong := wrong + (given.said IS DISTINCT FROM '53200' AND given.said IS DISTINCT FROM wanted)::int;
        allocates := true;
    END LOOP;
    allocates := coalesce(allocates, false);
END $$;
\set long '''EN-aaaaa-bbbbb-ccccc-ddddd-eeeee-u-attr-kn-ca-buddhist-hc-h12-t-de-m0-din-a-foo-b-bar-x-a-b-c-d-e-f'''
CREATE TEMP TABLE statement(it text);
INSERT INTO statement VALUES
    ('SELECT ' || quote_literal(:long) || '::ulocale'), ('SELECT ' || quote_literal(:long || '-') || '::ulocale'),
    ('SELECT ''en''::text::ulocale'), ('SELECT ulocale_is_valid(''en-a-foo-u-kn-ca-x'')'),
    ('SELECT reason FROM ulocale_fault(''en-a-foo-u'')'), ('SELECT language(' || quote_literal(:long) || ')'),
    ('SELECT script(''en-Latn'')'), ('SELECT region(''en'')'), ('SELECT variants(' || quote_literal(:long) || ')'),
    ('SELECT base_name(' || quote_literal(:long) || ')'), ('SELECT parent(' || quote_literal(:long) || ')'),
    ('SELECT parent(''en-aaaaa-bbbbb-ccccc-ddddd-eeeee'')'), ('SELECT parent(''en-US'')'),
    ('SELECT keyword(' || quote_literal(:long) || ', ''ca'')'), ('SELECT keyword(''en'', ''ca'')'),
    ('SELECT string_agg(key || value, '' '') FROM keywords(' || quote_literal(:long) || ')');
SELECT row_number() OVER (), each.* FROM statement, refuse_each(it) AS each;
-- an error of PostgreSQL's own between two values, and a query that stops early
SELECT count(1 / (CASE WHEN n = 500 THEN 0 ELSE length(language(('en-x-' || n)::ulocale)) END))
FROM generate_series(1, 1000) AS n;
SELECT key FROM keywords('en-u-kn-ca-buddhist-nu-latn') LIMIT 1;
SELECT ulocale_try_live();
