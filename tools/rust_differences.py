"""Which texts the Rust crate is known to answer otherwise (docs/DIFFERENCES.md)."""

import itertools
import re


def is_answered_otherwise(line):
    """Whether the Rust crate may answer the line otherwise: since a language has five to eight
    letters, or since the first extension is a `u` without a key."""
    pieces = line.lower().split(b"-")
    languages = [pieces[0], *(it for at, it in zip(pieces, pieces[1:]) if at == b"t")]
    if any(re.fullmatch(rb"[a-z]{5,8}", it) for it in languages):
        return True
    block = list(itertools.dropwhile(lambda it: len(it) != 1, pieces))
    if block[:1] != [b"u"]:
        return False
    fields = itertools.dropwhile(lambda it: re.fullmatch(rb"[0-9a-z]{3,8}", it), block[1:])
    return not re.fullmatch(rb"[0-9a-z][a-z]", next(fields, b""))
