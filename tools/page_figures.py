"""Figures that stand on pages: what the sources have, and how pages say it. tools/check_pages compares them.

In a pattern `#` is the figure, in digits or as a word, and `@` a name such as that of a version. A figure of which nothing here
is the source has only to be the same wherever it stands. What was measured on a day is not among them."""
import functools
import glob
import pathlib
import re

from written import SPECS_WIDTH as WIDTH
from common import ROOT, below, crates_of, read, rows_of, stop

SAID = "two three four five six seven eight nine ten eleven twelve thirteen fourteen fifteen sixteen".split()
NUMBER, NAME = rf"(\d[\d,]*|{'|'.join(SAID)})", r"([\w.]*\w)"
LIMITS = ("bindings/web/page/page.mjs", "bindings/web/page/page.html", "bindings/web/index.d.ts", "crates/locale_web/src/lib.rt",
          "crates/locale_web/specs/Reading.antt")
OUTLINE = ("docs/ARCHITECTURE.md", "docs/DECISIONS.md", "docs/PROMISES.md", "bindings/web/README.md", "vectors/README.md")
STEPS = ("README.md", "docs/CLAUSES.md", "docs/DEFINITIONS.md", "docs/PROMISES.md", "docs/REVIEW.md", "crates/iloc_locale/src/normalizing.rt")
KINDS = ("docs/API.md", "docs/ARCHITECTURE.md", "docs/DECISIONS.md", "docs/FROM_RUST.md", "docs/PROMISES.md", "vectors/README.md")


def standing(path, pattern):
    """Returns the number that a source has where the pattern finds it."""
    found = re.search(pattern, read(path))
    if not found:
        stop("check_pages", f"{path} has no text as {pattern!r}", "Correct the list in tools/page_figures.py.")
    return int(found[1].replace("_", ""))


def constant(path, name):
    return standing(path, rf"\bconst {name}: \w+ = ([\d_]+);")


def lines(path):
    return pathlib.Path(ROOT, path).read_bytes().count(b"\n")


def files(pattern):
    return len(glob.glob(f"{ROOT}/{pattern}"))


def listed():
    """Yields what a figure is of, its number in the sources or none, how it is said, and where it has to stand."""
    yield ("pieces of an outline in place", constant("crates/iloc_spans/src/spans.rt", "MOST"),
           r"more than # pieces|[Uu]p to # pieces|past # spans|room for #, and room|\(# < length \(pieces t\)\)", OUTLINE + LIMITS)
    yield ("bytes of a text for WebAssembly", constant("crates/locale_web/src/reading.rt", "MOST"),
           r"pieces,? (?:or|and)(?: of more than)? # bytes|text of more than # bytes|locales\) or # bytes|\(# < length t\)",
           ("docs/PROMISES.md", "bindings/web/README.md", *LIMITS))
    yield ("steps of rewriting", standing("crates/iloc_locale/specs/LocaleReading.antt", r"\(TextStep languages\) (\d+)"),
           "[Aa]t most # rewriting steps|at most # steps (?:of|lead|away)|At most # steps lead from", STEPS)
    yield ("kinds of subtags", len(re.findall(r"impl WordKind<", "".join(map(read, glob.glob(f"{ROOT}/crates/iloc_subtags/src/*.rt"))))),
           "(?:the|of|all|for) # kinds(?! of goals)", KINDS)
    yield "named mutants", len(rows_of("tools/named_mutants.txt")), "the # of `tools/named_mutants.txt`", ("docs/GATE.md",)
    yield "mutants", round(files("crates/*/edits/*.edit"), -2), "some # in all crates", ("docs/GATE.md",)
    yield "wrong edits of the web package", files("bindings/web/edits/*.edit"), "# wrong edits of the scripts", ("docs/BINDINGS.md",)
    yield "minutes of other mutants", standing("test", r"EDITS_MINUTES:-(\d+)"), (
        r"for # minutes \(`?(?:or )?EDITS_MINUTES|`tools/edits --minutes #`|# minutes by the clock"), ("docs/GATE.md", "test")
    yield ("crates of the program", len(below("locale_normal", crates_of(f"{ROOT}/crates.txt"))), r"\(# crates,", ("docs/GATE.md",))
    yield "columns of definitions", WIDTH, "over # columns|`rt fmt`: at most # columns", ("CONTRIBUTING.md", "docs/GATE.md")
    yield ("vectors", lines("vectors/texts.in"), r"`texts\.in` \| # lines|`vectors/texts\.in` holds # texts|over the # texts|one text of all #",
           ("vectors/README.md", "conformance/README.md", "conformance/peers/README.md"))
    yield "long vectors", lines("vectors/long.in"), r"`long\.in` \| # lines", ("vectors/README.md",)
    yield "real lines", lines("vectors/real.in"), r"`real\.in` has # lines", ("vectors/README.md",)
    yield "the toolchain", None, "rattle-kit-@", ("README.md", "docs/GATE.md")
    yield "the logic", None, "logic @`|sum=@ ", ("README.md", "docs/CLAUSES.md")
    yield "minutes of ./test --quick", None, r"`\./test --quick`(?: runs the tests)?[\w ,|]*? # minutes", ("README.md", "CONTRIBUTING.md", "docs/GATE.md")
    yield "WebKitGTK", None, r"WebKitGTK (\d[\d.]*\d)", ("docs/BINDINGS.md", "bindings/web/README.md")


@functools.lru_cache(maxsize=None)
def figures():
    return tuple(listed())


def number(text):
    plain = text.replace(",", "")
    return int(plain) if plain.isdigit() else SAID.index(text) + 2 if text in SAID else text


def found_on(text, pattern):
    """Returns what a page says of a figure, as numbers, and how it does."""
    text = re.sub(r"\s+(?:(?:///?!?|--|\*) )?", " ", text)
    every = re.finditer(pattern.replace("#", NUMBER).replace("@", NAME), text)
    return [(tuple(number(part) for part in it.groups() if part), it[0]) for it in every]


def faults(texts):
    """Yields for each figure what is wrong with it on the pages, which are given as texts by their paths."""
    for what, wanted, pattern, where in figures():
        said = {path: found_on(texts.get(path) or read(path), pattern) for path in {*texts, *where}}
        every = [it for path in sorted(said) for it, _ in said[path]]
        right = (wanted,) if wanted is not None else every[0] if every else ()
        wrong = [f"{path}: {shown!r}: {what}: not {right[0]}, as {'the sources have' if wanted else 'another page says'}"
                 for path in sorted(said) for it, shown in said[path] if it != right]
        missing = "{}: no text as {!r}: correct the page, or the list in tools/page_figures.py".format
        yield wrong + [missing(path, pattern) for path in where if not said[path]]
