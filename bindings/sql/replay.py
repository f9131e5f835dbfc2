"""Asks a database about the lines of the vectors, for bindings/sqlite/try and bindings/postgres/try."""
import os
import pathlib
import re
import sys

sys.path.insert(0, str(pathlib.Path(__file__).resolve().parents[2] / "tools"))
from common import TOP, Counts, counted

# One expression for each line: its normal form, or "! " and why it has none.
ASKED = "CASE WHEN {valid} THEN {normal} ELSE '! ' || {reason} END"


class Tried(Counts):
    """The cases so far, and the names of what was not tried."""

    def __init__(self):
        self.not_tried = []

    def skip(self, name, why):
        """Names what is not tried."""
        self.not_tried.append(f"{name} ({why})")

    def end(self):
        """Prints what was not tried and the last line, and returns the status. Nothing tried is no failure."""
        for it in self.not_tried:
            print(f"not tried: {it}")
        status = counted(self.passed, self.failed)
        return status if self.passed or self.failed else 0


def lines_of(name):
    """Returns the lines of a file of the vectors, as bytes."""
    return (TOP / "vectors" / name).read_bytes().split(b"\n")[:-1]


def vectors(mode):
    """Yields for the lines and the long lines their name, the texts and the wanted answers in the mode."""
    for stem, texts in (("", "texts.in"), ("long.", "long.in")):
        yield texts, lines_of(texts), lines_of(f"{stem}{mode}.out")


def see_answers(counts, name, texts, given, wanted):
    """Counts each answer, and says the first that is wrong."""
    wrong = [it for it in zip(texts, given, wanted) if it[1] != it[2]]
    failed = len(wrong) + abs(len(given) - len(wanted))
    first = f"; {wrong[0][0]} gives {wrong[0][1]}, and not {wrong[0][2]}" if wrong else ""
    print(f"{name}: {max(0, len(wanted) - failed)} as wanted{first}", flush=True)
    counts.add(max(0, len(wanted) - failed), failed)


def see_script(counts, name, given, wanted):
    """Counts each line of what a script of SQL wrote, and says the first that is wrong."""
    see_answers(counts, name, [f"line {at}".encode() for at in range(1, len(wanted) + 1)], given, wanted)


def words_or_help(text):
    """Returns whether --write is given; other words end the script, with its help."""
    if sys.argv[1:] not in ([], ["--write"]):
        print(text)
        sys.exit(sys.argv[1:] != ["--help"])
    return bool(sys.argv[1:])


def table_of(name, columns, rows):
    """Returns a table in Markdown, with what it was measured on above it."""
    model = re.search(r"(?m)^model name\s*: (.*)$", pathlib.Path("/proc/cpuinfo").read_text(encoding="utf-8"))[1]
    lines = [f"{model}, load {os.getloadavg()[0]:.0f} on {os.cpu_count()} processors.", ""]
    lines += [f"| {name} | {' | '.join(columns)} |", "|---" * (len(columns) + 1) + "|"]
    return "\n".join([*lines, *(f"| {' | '.join(it)} |" for it in rows)]) + "\n"


def write_table(name, text, is_written):
    """Prints the table, or puts it between the marks of that name in docs/SPEED.md."""
    if not is_written:
        return print(text, end="")
    begins, ends = f"<!-- written by bindings/{name}/speed --write -->\n", f"<!-- end of what bindings/{name}/speed writes -->\n"
    page = TOP / "docs" / "SPEED.md"
    before, rest = page.read_text(encoding="utf-8").split(begins)
    page.write_text(before + begins + text + ends + rest.split(ends)[1], encoding="utf-8")
