.bail off
.load ./icu_locale_sqlite
.nullvalue NULL
.headers off
PRAGMA trusted_schema=OFF;
.print # from text to text
SELECT locale_normalize('EN-us-u-ca-Buddhist'), locale_normalize('und-u-sd-419a', 'data'), locale_normalize(NULL);
SELECT locale_is_valid('en-US'), locale_is_valid('en_US_POSIX'), locale_is_valid('en-'), locale_is_valid(''), locale_is_valid('en-u-ca', 'identifier'), locale_is_valid(5), locale_is_valid(NULL);
SELECT locale_fault('en-US'), locale_fault('en-'), locale_fault('en-US-toolonggg') ->> 'start', locale_fault('en-a-é-foo-toolonggg') ->> 'start';
SELECT locale_fault('en-US-foo') ->> 'expected', locale_fault('en-US-u-ca', 'identifier') ->> 'expected', locale_fault('en-t-m0') ->> 'expected', locale_fault('en_US') ->> 'hint', locale_fault('de_DE.UTF-8') ->> 'hint', locale_fault('C') ->> 'hint', locale_fault('en_US_u_ca', 'identifier') ->> 'hint';
SELECT locale_normalize('en_US');
SELECT locale_normalize(char(101, 110, 0, 45));
SELECT locale_normalize('en-');
SELECT locale_normalize('en-ÄÄÄÄÄÄÄÄÄÄÄÄÄÄÄÄÄÄÄÄÄÄÄÄÄÄÄÄÄÄÄÄÄÄÄÄÄÄÄÄÄÄÄÄÄÄÄÄÄÄÄÄÄÄÄÄÄ');
SELECT locale_normalize('en', 'upper');
.print # parts
SELECT locale_language('EN-latn-us'), locale_script('EN-latn-us'), locale_region('en'), locale_variants('en-posix-macos'), locale_base_name('EN-us-u-kn');
SELECT locale_keyword('en-u-kn-ca-buddhist', 'KN') = '', locale_keyword('en-u-kn-ca-buddhist', 'ca'), locale_keyword('en', 'ca'), locale_keyword('en', 'no key');
SELECT locale_region('en-x');
WITH RECURSIVE chain(it) AS (SELECT 'EN-latn-us-posix-macos-u-ca-buddhist' UNION ALL SELECT locale_parent(it) FROM chain WHERE locale_parent(it) IS NOT NULL) SELECT group_concat(it, ' > ') FROM chain;
SELECT part, key, value FROM locale_parts('EN-latn-us-posix-macos-a-foo-u-attr-kn-ca-buddhist-t-de-m0-din-x-y');
SELECT count(*) FROM locale_parts('en-');
SELECT count(*) FROM locale_parts(NULL);
.print # the collation
SELECT 'EN-us' = 'en-US' COLLATE LOCALE, 'en-' = 'EN-' COLLATE LOCALE, 'zz' < 'en-' COLLATE LOCALE;
SELECT group_concat(it, ' ') FROM (SELECT column1 AS it FROM (VALUES ('EN-us'), ('not a locale'), ('en-a'), ('de'), ('EN'), ('en-Latn-us')) ORDER BY it COLLATE LOCALE);
.print # a table: CHECK, unique by meaning, generated column, index on a part
CREATE TABLE page(
    id INTEGER PRIMARY KEY,
    tag TEXT NOT NULL CHECK (locale_is_valid(tag)),
    normal TEXT AS (locale_normalize(tag)) STORED,
    language TEXT AS (locale_language(tag)) VIRTUAL);
CREATE UNIQUE INDEX page_normal ON page(normal);
CREATE INDEX page_language ON page(language);
CREATE INDEX page_region ON page(locale_region(tag));
INSERT INTO page(tag) VALUES ('EN-us'), ('de-AT'), ('sr-Latn-RS');
INSERT INTO page(tag) VALUES ('en-US');
INSERT INTO page(tag) VALUES ('en_USA');
INSERT INTO page(tag) VALUES ('en-u');
SELECT tag, normal, language FROM page ORDER BY normal;
EXPLAIN QUERY PLAN SELECT id FROM page WHERE language = 'de';
EXPLAIN QUERY PLAN SELECT id FROM page WHERE locale_region(tag) = 'RS';
SELECT tag FROM page WHERE locale_region(tag) = 'RS';
CREATE TABLE strict_page(tag TEXT NOT NULL PRIMARY KEY CHECK (tag = locale_normalize(tag))) WITHOUT ROWID;
INSERT INTO strict_page VALUES ('en-US');
INSERT INTO strict_page VALUES ('en-us');
PRAGMA integrity_check;
.print # ranges: the examples of RFC 4647, section 3.3.2, then und, case and NULL
SELECT group_concat(column1 || '=' || locale_matches(column1, 'de-DE'), ' ') FROM (VALUES ('de-DE'), ('de-de'), ('de-Latn-DE'), ('de-Latf-DE'), ('de-DE-x-goethe'), ('de-Latn-DE-1996'), ('de-Deva-DE'), ('de'), ('de-x-DE'), ('de-Deva'));
SELECT locale_matches('de-us', 'UND-us'), locale_matches('de-x-us', 'und'), locale_matches('en-US-u-ca-buddhist', 'en-u-ca'), locale_matches('eng', 'en'), locale_matches('en-x-posix', 'en-posix'), locale_matches(NULL, 'en'), locale_matches('en', NULL);
SELECT locale_matches('en', 'en-');
SELECT locale_parent('und'), locale_parent('en-u-ca'), locale_parent('und-US');
.print # dumped, restored, and opened without the extension
.once dumped.sql
.dump page
.open :memory:
.load ./icu_locale_sqlite
.read dumped.sql
SELECT tag, normal, language FROM page ORDER BY normal;
.open :memory:
.read dumped.sql
SELECT count(*) FROM page;
