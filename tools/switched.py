"""Builds a program unproved with several mutants in its sources, of which each run chooses one.

The environment variable ICU_LOCALE_MUTANT is the number of the mutant, from one; with another nothing is changed. A body
that a mutant changes becomes `{ if chosen() == 1 {its body} else {the body} }`. What a mutant changes outside of
bodies, as who may see a field, is changed for all. The number is read by a function in C, which is linked to the program
and to nothing else."""
import os
import pathlib
import shutil
import subprocess

from common import ROOT, write
from edit_places import functions
from kit import rt
from unproved import Build, crates

CHOSEN = """
/// Which mutant is chosen.
pub mod chosen_mutant {
    mod c {
        unsafe extern "C" {
            pub safe fn icu_locale_chosen_mutant() -> u32;
        }
    }

    /// Its number.
    pub fn number() -> u32 {
        c::icu_locale_chosen_mutant()
    }
}
"""
IN_C = """extern char *getenv(const char *);
unsigned icu_locale_chosen_mutant(void) {
    static unsigned number, is_known;
    if (!is_known) {
        for (const char *it = getenv("ICU_LOCALE_MUTANT"); it && *it >= '0' && *it <= '9'; it++)
            number = 10 * number + (*it - '0');
        is_known = 1;
    }
    return number;
}
"""


def parts_of(folder, path):
    """Returns the text of a file, cut where bodies of functions begin and end: each second part is a body."""
    text = pathlib.Path(folder, path).read_bytes()
    cuts = [at for _, body, end, *_ in functions(text) for at in (body, end)]
    return [text[start:end] for start, end in zip([0, *cuts], [*cuts, len(text)])]


def put_in(room, crate, mutants):
    """Puts the mutants of a crate, by their numbers, into its sources in the room. Returns what is wrong, or nothing."""
    folder, edited = f"{room}/crates/{crate}", f"{room}/edited"
    plain, changed = {}, {}
    for number, name in mutants.items():
        texts, why = rt.read_edit(f"{ROOT}/crates/{crate}/edits/{name}.edit", folder)
        if why:
            return f"{name}: {why}"
        for path, text in texts.items():
            os.makedirs(os.path.dirname(f"{edited}/{number}/{path}"), exist_ok=True)
            write(f"{edited}/{number}/{path}", text)
        for path in texts:
            parts, others = plain.setdefault(path, parts_of(folder, path)), parts_of(f"{edited}/{number}", path)
            if len(parts) != len(others):
                return f"{name}: {path} has other functions than before"
            for at, other in enumerate(others):
                if other != parts[at]:
                    changed.setdefault((path, at), []).append((number, other))
    shutil.rmtree(edited, ignore_errors=True)
    for (path, at), found in changed.items():
        if at % 2:
            tests = b"".join(b"if crate::chosen_mutant::number() == %d %s else " % it for it in found)
            plain[path][at] = b"{ %s%s }" % (tests, plain[path][at])
        elif len(found) == 1:
            plain[path][at] = found[0][1]
        else:
            return f"{path}: several mutants change it outside of the bodies of its functions"
    for path, parts in plain.items():
        pathlib.Path(folder, path).write_bytes(b"".join(parts))
    with open(f"{folder}/src/lib.rt", "a") as file:
        file.write(CHOSEN)
    return ""


def built(room, program, mutants):
    """Begins to build the program in the room with these mutants, pairs of a crate and a name. Returns the build, or None
    and what is wrong."""
    by_crate = {}
    for number, (crate, name) in enumerate(mutants, 1):
        by_crate.setdefault(crate, {})[number] = name
    for crate, its in by_crate.items():
        why = put_in(room, crate, its)
        if why:
            return None, why
    write(f"{room}/chosen.c", IN_C)
    subprocess.run([f"{rt.KIT}/toolchain/bin/clang", "-O1", "-c", f"{room}/chosen.c", "-o", f"{room}/chosen.o"], check=True)
    made = crates(room)[program]
    return Build(program, f"{made.folder}/src/main.rt", [made], objects=(f"{room}/chosen.o",)), ""
