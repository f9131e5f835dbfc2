"""Sums of sources, which show whether a program that was built of them is still of the present text."""
import hashlib
import os
import pathlib
import shutil

from common import ROOT, below, crates_of, files_below

# What a program's proof rests on, and what its code is made of.
PROVED_PARTS, CODE_PARTS = ("src", "specs", "proofs"), ("src",)


def files_of(name, parts):
    """Returns the paths of the sources of a crate, or of one in a folder elsewhere, in order."""
    return sorted(it for part in parts for it in files_below(os.path.join(ROOT, "crates", name, part)))


def sum_of(path):
    """Returns the sum of a file, or no sum if it cannot be read."""
    try:
        return hashlib.sha256(pathlib.Path(path).read_bytes()).hexdigest()
    except OSError:
        return ""


def sum_of_sources(names, parts, *more):
    """Returns the sum of these crates and of all that they stand on, and of whatever else counts."""
    lines = crates_of(os.path.join(ROOT, "crates.txt"))
    every = list(dict.fromkeys(it for name in names for it in below(name, lines)))
    total = hashlib.sha256(repr((more, [lines[it] for it in every])).encode())
    for name in every:
        for path in files_of(name, parts):
            total.update(f"{os.path.relpath(path, ROOT)} {sum_of(path)}\n".encode())
    return total.hexdigest()


def is_current(program, sources):
    """Returns whether the program is the one that was kept for these sources."""
    try:
        return pathlib.Path(f"{program}.stamp").read_text(encoding="ascii") == f"{sources} {sum_of(program)}\n"
    except (OSError, ValueError):
        return False


def keep(made, program, sources):
    """Puts the file that was made in the place of the program, whole or not at all, with its stamp."""
    os.makedirs(os.path.dirname(program), exist_ok=True)
    part = f"{program}.{os.getpid()}"
    try:
        shutil.copyfile(made, part)
        os.chmod(part, 0o755)
        os.replace(part, program)
        pathlib.Path(part).write_text(f"{sources} {sum_of(program)}\n", encoding="ascii")
        os.replace(part, f"{program}.stamp")
    finally:
        if os.path.exists(part):
            os.remove(part)
