"""Locales in SQLite: the extension, loaded into a connection of Python's sqlite3.

>>> import sqlite3
>>> connection = sqlite3.connect(":memory:")
>>> load(connection)
>>> connection.execute("SELECT locale_normalize('EN-us')").fetchone()
('en-US',)

docs/DATABASES.md lists the functions."""

from __future__ import annotations

import os
import pathlib
import sqlite3

__all__ = ["load"]

_NAME = "icu_locale_sqlite.so"
_HERE = pathlib.Path(__file__).resolve().parent
_DEBIAN = pathlib.Path("/usr/lib/x86_64-linux-gnu")  # (where the package icu-locale-sqlite3 puts it)


def _extension() -> pathlib.Path:
    """The extension: the one that ICU_LOCALE_SQLITE names, or beside this file (in a wheel), or in the repository, or of Debian."""
    named = os.environ.get("ICU_LOCALE_SQLITE")
    built = pathlib.Path(named) if named else _HERE.parent.parent.parent / "out" / "bindings" / "sqlite" / _NAME
    for it in [built] if named else [_HERE / _NAME, built, _DEBIAN / _NAME]:
        if it.is_file():
            return it
    raise ImportError(f"there is no {built}: install icu-locale-sqlite3, run make in bindings/sqlite, or name it by ICU_LOCALE_SQLITE")


def load(connection: sqlite3.Connection) -> None:
    """Adds the functions, the table locale_parts and the collation LOCALE to a connection.

    Other extensions cannot be loaded afterwards, unless the connection allows it anew. ImportError if the extension is not
    there, or if this Python's sqlite3 loads none."""
    path = _extension()
    if not hasattr(connection, "enable_load_extension"):
        raise ImportError("the sqlite3 of this Python loads no extensions: use one built with --enable-loadable-sqlite-extensions")
    connection.enable_load_extension(True)
    try:
        connection.load_extension(str(path.with_suffix("")))
    finally:
        connection.enable_load_extension(False)
