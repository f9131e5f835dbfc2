"""Where the functions of a crate stand in its text, and what a check calls them."""
import functools
import os
import re

import rattle

# A const fn, whose body others may read, and a function in a cycle of calls, whose proof is that
# of others too.
ALONE = re.compile(
    rb"\bconst\s+(unsafe\s+)?\Z"
    rb"|#\[cycle\b[^\n]*\s*(#\[[^\n]*\s*)*(pub\b(\([^)]*\))?\s*)?(unsafe\s+)?\Z"
)


@functools.lru_cache(maxsize=None)
def functions(text):
    """Returns (start, body, end, name, owner) of each fn with a body, by the bytes of a text; 'owner' is the head of
    its impl or trait. Inline modules are passed over."""
    every = rattle.functions([rattle.read_text(text.decode("latin-1"))[()]])  # (in which each byte is a sign)
    head = lambda it: (it.kind + it.head).encode("latin-1").decode() if it else ""
    return [(it.at, *it.inside, it.name, head(it.owner)) for it in every if it.inside]


def owners(head):
    """Returns patterns of the names that a check may give to the impl or trait of this head, the
    likeliest first: the type, the trait and the trait's arguments in one word, where & is Ref,
    (A, B) is Tuple2AB, [T] is Slice or Array, and a parameter of the impl is nothing."""
    if head[:4] != "impl":
        return [head.split()[1].partition("<")[0].rstrip(":")]
    params, rest = rattle.generics(re.sub(r"\bwhere\b.*", "", head[4:], flags=re.S))
    tuple_of = lambda it: f" Tuple{len(it[1].split(','))} {it[1]}"
    while "(" in rest:
        rest = re.sub(r"\(([^()]*)\)", tuple_of, rest)
    marks = {"&": "Ref", "[": "(Slice|Array)", "mut": "(Mut)?"}
    marks.update(dict.fromkeys(["dyn", "crate", *params], ""))
    parts = lambda text: re.findall(r"(?<!')\b[a-zA-Z_]\w*|[&\[]", text)
    word = lambda text: "".join(marks.get(it, it[:1].upper() + it[1:]) for it in parts(text))
    trait, _, own = rest.rpartition(" for ")
    name, _, given = trait.partition("<")
    return [word(own) + word(name.split("::")[-1]) + it for it in (word(given), "")]


def names_tried(crate_name, file, name, owner):
    """Returns patterns of the names that a check may give to this function, the likeliest first."""
    inner = file[len("src/") : -len(".rt")].split("/")
    stem = "::".join([crate_name, *(it for it in inner if it not in ("lib", "main", "mod"))])
    if not owner:
        return [f"{stem}::{name}"]
    tried = [f"{stem}::{it}::{name}" for it in owners(owner)]
    # a method of an impl for no trait is named where its type stands
    if owner[:4] == "impl" and " for " not in owner:
        tried.append(rf"[\w:]+::{owners(owner)[0]}::{name}")
    return tried


def placed(crate, texts, names):
    """Returns (file, body, end, name) of the functions whose name in a check is beyond doubt.

    'texts' are rtlib's blanked ones, 'names' all names that a check of the crate gave."""
    found = []
    for path, text in texts.items():
        file, text = os.path.relpath(path, crate.folder), text.encode()
        for start, body, end, name, owner in functions(text) if file.endswith(".rt") else ():
            tried = names_tried(crate.name, file, name, owner)
            known = next(filter(None, ([it for it in names if re.fullmatch(one, it)] for one in tried)), ())
            if len(known) == 1 and not ALONE.search(text[:start]):
                found.append((file, body, end, known[0]))
    all_names = [it[3] for it in found]
    return [it for it in found if all_names.count(it[3]) == 1]
