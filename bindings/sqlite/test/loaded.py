"""Loads the extension by the package icu_locale_c, asks about the vectors in three modes, and sorts by the collation.

bindings/sqlite/try runs it. The last line is: N passed, M failed."""
import contextlib
import os
import pathlib
import sqlite3
import sys

sys.dont_write_bytecode = True
TOP = pathlib.Path(os.path.realpath(__file__)).parents[3]
sys.path[:0] = [f"{TOP}/tools", f"{TOP}/bindings/sql", f"{TOP}/bindings/python"]
import icu_locale_c.sqlite
from icu_locale_c import Locale, LocaleError
from common import Counts, start
from replay import ASKED, lines_of, see_answers, vectors

EXTENSION = TOP / "out" / "bindings" / "sqlite" / "icu_locale_sqlite.so"
MODES = (("identifier", "langid"), ("locale", "locale"), ("data", "data"))


def see_vectors(counts, database):
    database.text_factory = bytes
    asked = ASKED.format(valid="locale_is_valid(it, ?2)", normal="locale_normalize(it, ?2)", reason="(locale_fault(it, ?2) ->> 'reason')")
    statement = f"SELECT {asked} FROM (SELECT CAST(?1 AS TEXT) AS it)"
    for word, mode in MODES:
        for name, texts, wanted in vectors(mode):
            given = [database.execute(statement, (text, word)).fetchone()[0] for text in texts]
            see_answers(counts, f"{name}, mode {word}", texts, given, wanted)


def parent_of(locale):
    """The parent: without extensions; of an identifier, without its last subtag; of a language, und; none of und."""
    if locale.base_name != str(locale):
        return locale.base_name
    return None if locale.is_und else str(locale).rpartition("-")[0] or "und"


# Each function, and the part as the package has it from the library.
PARTS = (
    ("locale_language(it)", lambda it: it.language),
    ("locale_script(it)", lambda it: it.script),
    ("locale_region(it)", lambda it: it.region),
    ("locale_variants(it)", lambda it: "-".join(it.variants) or None),
    ("locale_base_name(it)", lambda it: it.base_name),
    ("locale_parent(it)", parent_of),
    ("locale_keyword(it, 'CA')", lambda it: it.keywords.get("ca")),
    ("(SELECT group_concat(key || '=' || value, ' ') FROM locale_parts(it) WHERE part = 'keyword')",
     lambda it: " ".join(f"{key}={value}" for key, value in it.keywords.items()) or None),
)


def see_parts(counts, database):
    """Parts, which the extension finds in the normal text, are those that the package has from the library."""
    for name in ("texts.in", "long.in"):
        locales = []
        for text in lines_of(name):
            with contextlib.suppress(LocaleError):
                locales.append((text, Locale(text)))
        for asked, part in PARTS:
            statement = f"SELECT {asked} FROM (SELECT CAST(?1 AS TEXT) AS it)"
            given = [database.execute(statement, (text,)).fetchone()[0] for text, _ in locales]
            see_answers(counts, f"{name}, {asked}", [it for it, _ in locales], given, [part(it) for _, it in locales])


def see_collation(counts, database):
    """A sort and an index by the collation have the order of normal forms, with texts that are no locale behind."""
    texts, normal = lines_of("texts.in"), lines_of("locale.out")
    key = {text: (it[:2] == b"! ", text if it[:2] == b"! " else it) for text, it in zip(texts, normal)}
    database.execute("CREATE TABLE t(it TEXT COLLATE LOCALE)")
    database.executemany("INSERT INTO t VALUES (CAST(? AS TEXT))", [(it,) for it in texts])
    for name in ("a sort by the collation", "an index by the collation"):
        given = [key[it] for it, in database.execute("SELECT it FROM t ORDER BY it")]
        see_answers(counts, name, texts, given, sorted(key[it] for it in texts))
        database.execute("CREATE INDEX IF NOT EXISTS i ON t(it)")


def see_loading(counts, database):
    """The package loads the extension, and allows no other afterwards."""
    (said,) = database.execute("SELECT locale_normalize('EN-us')").fetchone()
    counts.see("load", said == "en-US", said)
    try:
        database.load_extension(str(EXTENSION.with_suffix("")))
        counts.see("load", False, "it lets other extensions be loaded")
    except sqlite3.OperationalError:
        counts.see("load", True)
    os.environ["ICU_LOCALE_SQLITE"] = str(EXTENSION.with_name("none.so"))
    try:
        icu_locale_c.sqlite.load(database)
        counts.see("load", False, "it loads a file that is not there")
    except ImportError as error:
        counts.see("load", "ICU_LOCALE_SQLITE" in str(error), str(error))


def see_refusal(counts, database):
    """A refused text is an error with its place, and changes no row."""
    database.execute("CREATE TABLE page(tag TEXT CHECK (locale_is_valid(tag)), normal TEXT AS (locale_normalize(tag)) STORED)")
    database.execute("INSERT INTO page(tag) VALUES ('EN-us')")
    for statement in ("UPDATE page SET tag = 'en-'", "INSERT INTO page(tag) VALUES ('de'), ('en-')"):
        try:
            database.execute(statement)
            counts.see(statement, False, "it was not refused")
        except sqlite3.Error as error:
            counts.see(statement, "Invalid subtag: 'en-' at 3..3: a script, a region, a variant or an extension may stand here" in str(error), str(error))
        rows = database.execute("SELECT tag, normal FROM page").fetchall()
        counts.see(statement, rows == [("EN-us", "en-US")], str(rows))


def main():
    counts, database = Counts(), sqlite3.connect(":memory:")
    icu_locale_c.sqlite.load(database)
    see_loading(counts, database)
    see_refusal(counts, database)
    see_parts(counts, database)
    see_vectors(counts, database)
    see_collation(counts, database)
    return counts.end()


start(main)
