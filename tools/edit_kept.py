"""Which mutants are to be tried: the list of the named ones, and the verdicts of this checkout.

A verdict holds for one text: of the mutant, of its crate, and of the code and definitions below. It stands in
out/edits.tsv, and goes with the checkout."""
import fcntl
import functools
import hashlib
import os
import re
import subprocess

from common import ROOT, read, rows_of, write
from kit import LOGIC
from sources import PROVED_PARTS, files_of

KEPT, NAMED = f"{ROOT}/out/edits.tsv", "tools/named_mutants.txt"
EDIT_NAME = re.compile(r"[A-Za-z0-9_-][A-Za-z0-9_.-]*\.edit")


def edits_of(crate):
    """Returns the paths of the crate's edits, and of what stands among them and is none."""
    there = files_of(crate.name, ("edits",))
    good = [it for it in there if EDIT_NAME.fullmatch(os.path.basename(it)) and os.path.dirname(it).endswith("/edits")]
    return good, [it for it in there if it not in good and not it.endswith(".md")]


@functools.lru_cache(maxsize=None)
def sum_below(crate):
    """Returns the sum of what a verdict on the crate's edits rests on, but the edit."""
    below = [path for it in crate.below() for path in files_of(it.name, ("src", "specs"))]
    total = hashlib.sha256(LOGIC.encode())
    for path in below + files_of(crate.name, PROVED_PARTS):
        total.update(f"{os.path.relpath(path, ROOT)}\n{read(path)}".encode())
    return total.hexdigest()


def sums_of(crate):
    """Returns the sums of the crate's edits and of all that a verdict on each rests on, by their paths."""
    own = sum_below(crate)
    return {it: hashlib.sha256((own + read(it)).encode()).hexdigest()[:24] for it in edits_of(crate)[0]}


def recorded():
    """Returns the verdicts: the sum and by what it was refused, of each mutant."""
    rows = [it.split() for it in rows_of(KEPT)] if os.path.isfile(KEPT) else []
    return {row[0]: tuple(row[1:]) for row in rows if len(row) == 3}


def record(rows):
    """Keeps verdicts, by the names of their mutants. Meanwhile no other process writes them."""
    with open(f"{ROOT}/out/edits.lock", "w") as lock:
        fcntl.flock(lock, fcntl.LOCK_EX)
        every = {name: row for name, row in {**recorded(), **rows}.items() if row}
        write(f"{KEPT}.new", "".join(f"{' '.join([name, *row])}\n" for name, row in sorted(every.items())))
        os.replace(f"{KEPT}.new", KEPT)


def git(*words):
    """Returns what git says, or nothing where it fails."""
    ran = subprocess.run(["git", *words], cwd=ROOT, stdin=subprocess.DEVNULL, capture_output=True, text=True)
    return ran.stdout if ran.returncode == 0 else None


def newest_first(crates):
    """Returns the crates in the order of their last commits."""
    when = {it.name: git("log", "-1", "--format=%ct", "--", f"crates/{it.name}") or "0" for it in crates}
    return sorted(crates, key=lambda it: -int(when[it.name].strip() or 0))


def listed():
    """Returns the functions that must be refused, by CRATE/MUTANT, and what is wrong with the list."""
    rows, wrong = {}, []
    for line in rows_of(NAMED):
        name, functions, *_ = [it.strip() for it in line.split("|")] + [""]
        crates = {it.partition("::")[0] for it in functions.split()}
        key = f"{min(crates, default='')}/{name}"
        path = f"{ROOT}/crates/{os.path.dirname(key)}/edits/{name}.edit"
        if len(crates) != 1 or key in rows or not os.path.isfile(path):
            wrong.append(f"{name}: NOT TRIED: there is no {os.path.relpath(path, ROOT)}, or it is listed twice")
        else:
            rows[key] = tuple(functions.split())
    return rows, wrong or ([] if rows else [f"{NAMED} names no mutant"])
