"""The public functions and implementations without a mutant: tools/edits --missing.

It looks at the crates on which the public crate, the library for C, the module for browsers and the program stand, and
at these. There each `pub fn`, each call of C, each default method of a trait, and each `impl` of a trait for a public type or a parameter
needs a mutant: a file of edits/ that changes a text of its body. None is asked for an empty body, nor for a law, which
takes and returns nothing; a derived implementation has no text.

A line of tools/no_mutants.txt is what has none, as it is printed here, then `|`, and the reason. In it `*` stands for any
text. A line that fits nothing without a mutant is a fault. This file needs nothing but Python."""
import os
import pathlib
import re

from common import ROOT, below, counted, crates_of, rows_of
from rattle import blanked, functions, generics, read_text
from sources import files_of

LIST = "tools/no_mutants.txt"
TOPS = ("icu_locale_core", "icu_locale_c", "locale_web", "locale_normal", "locid")
TYPE = re.compile(rb"^pub (?:struct|enum|type) (\w+)", re.M)
LAW = re.compile(r"(?:\w+ )*fn \w+(?:<[^>]*>)?\(\)\s*(?:ensures|\{)")


def texts_of(crate, part, end):
    """Returns the files of a part of the crate whose names end so, by their paths in it."""
    paths = [it for it in files_of(crate, (part,)) if it.endswith(end)]
    return {os.path.relpath(it, f"{ROOT}/crates/{crate}"): pathlib.Path(it).read_bytes() for it in paths}


def places(text, texts):
    """Yields where a mutant changes the sources, as (file, place): behind what the old text and the new one share. What an
    earlier pair of lines replaced is found by no later one."""
    texts, file, old = dict(texts), "", b""
    for line in text.split(b"\n"):
        key, _, rest = line.partition(b": ")
        if key == b"file":
            file = rest.strip().decode()
        elif key == b"old":
            old = rest
        elif line[:4] == b"new:" and old and old in texts.get(file, b""):
            at = texts[file].find(old)
            yield file, at + len(os.path.commonprefix([old, line[5:]]))
            texts[file] = texts[file].replace(old, b"\0" * len(old), 1)


def in_one_line(item):
    """Returns the head of an impl or a trait without what stands behind `where`."""
    return " ".join(re.sub(r"\bwhere\b.*", "", item.kind + item.head, flags=re.S).split())


def is_for_public(head, types):
    """Returns whether the head is that of a trait for a public type or for a parameter."""
    given, rest = generics(head)
    trait, _, own = rest.rpartition(" for ")
    names = re.findall(r"[A-Z]\w*", own)
    return bool(trait) and (not names or names[0] in given or names[0].encode() in types)


def wanted(source, types):
    """Yields the name of each thing that needs a mutant, with the ranges of its bodies."""
    module = read_text(source.decode("latin-1"))[()]  # (in which each byte is a sign)
    every = [it for it in functions([module]) if blanked(it.body).strip("{} \n") and not LAW.match(it.text)]
    for it in every:
        if it.is_public or it.name.startswith("icu_locale_") or it.owner and it.owner.kind == "trait":
            yield f"{in_one_line(it.owner)}::{it.name}" if it.owner else it.name, [it.inside]
    for impl in [it for it in module.items if it.kind == "impl"]:
        inner = [it.inside for it in every if it.owner is impl]
        if inner and is_for_public(impl.head, types):
            yield in_one_line(impl), inner


def missing():
    """Returns what has no mutant, and how many things have one."""
    lines, crates, found, count = crates_of(f"{ROOT}/crates.txt"), [], [], 0
    for top in TOPS:
        below(top, lines, crates)
    every = {it: texts_of(it, "src", ".rt") for it in crates}
    types = {it for texts in every.values() for text in texts.values() for it in TYPE.findall(text)}
    for crate, texts in every.items():
        changed = {at for edit in texts_of(crate, "edits", ".edit").values() for at in places(edit, texts)}
        for file, source in texts.items():
            there = [place for path, place in changed if path == file]
            for name, bodies in wanted(source, types):
                has_one = any(body < it < end for body, end in bodies for it in there)
                count += has_one
                found += [] if has_one else [f"{crate}/{file} {name}"]
    return found, count


def fits(form, name):
    """Returns whether the line of the list means this."""
    return re.fullmatch(".*".join(map(re.escape, form.split("*"))), name) is not None


def faults():
    """Returns what has no mutant and no reason, and the lines of the list that are wrong; and how many things are right."""
    found, count = missing()
    rows = [line.split("|", 1) for line in rows_of(LIST)]
    forms = [row[0].strip() for row in rows]
    wrong = [f"{it}: HAS NO MUTANT" for it in found if not any(fits(form, it) for form in forms)]
    count += len(found) - len(wrong)
    for form, *reason in rows:
        if not any(reason) or not any(fits(form.strip(), it) for it in found):
            wrong.append(f"tools/no_mutants.txt: {form.strip()}: all that it means has a mutant, or it gives no reason")
    return wrong, count


def say_faults():
    """Prints what is wrong, and returns the status of the script."""
    wrong, count = faults()
    print("\n".join(wrong), end="\n" * bool(wrong))
    return counted(count, len(wrong))
