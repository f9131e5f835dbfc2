"""Finds for each call a line of a program or of a test that makes it, and that the gate runs.

The programs that use the public crate come first, then the programs of rows and the tests. What a call
is made on is read from the parameters and the `let`s of the function, and by the fields of structs."""
import collections
import functools
import glob
import os
import re

from api_model import shown
from api_source import CORE, libraries, sources
from common import ROOT, read, without_prefix, without_suffix
from rattle import blanked, closing, joined, listed

# The longest statement that is shown.
LONGEST = 120
FIRST = ("crates/example_first_locale", "crates/example_recipes")
STATIC = re.compile(r"\b([A-Z]\w*)(?:::<[^>()]*>)?::(\w+)(?:::<[^>()]*>)?\(")
METHOD = re.compile(r"\b(\w+)((?:\.[a-z_]\w*)*)\.(\w+)(?:::<[^>()]*>)?\(")
BARE = re.compile(r"(?<![\w.:])(\w+)(?:::<[^>()]*>)?\(")
LET = re.compile(r"let (?:mut )?(\w+)(?:: [^=]+)? = (?:match )?(\w+)(?:::<[^>()]*>)?::(?:try_from|from|new|unknown|default)\w*\(")
MATCHED = re.compile(
    r"(?:match|let) (\w+)(?:::<[^>()]*>)?::(?:try_\w+|new)\([^{]*\{[^{}]*?\bOk\((?:mut )?(\w+)\)"
)
ANNOTATED = re.compile(r"let (?:mut )?(\w+): (\w+)")
BOUND = re.compile(r"\b([A-Z]\w*): (?:\w+::)*([A-Z]\w+)")
MACRO = re.compile(r"^macro_rules! (\w+) \{\n    \(([^)]*)\) => \{+\n(.*?)^    \}+;\n\}", re.S | re.M)
BORROWED = re.compile(r"let (?:mut )?(\w+) = &(?:mut )?(\w+)((?:\.\w+)*);")


def files():
    """Returns the files that the gate runs: programs of users, programs of rows, tests; then the library's own."""
    paths = sorted(os.path.relpath(it, ROOT) for it in glob.glob(f"{ROOT}/crates/*/src/*.rt"))
    within = [it for it in paths if it.split("/")[1] in libraries()]
    own = [it for it in within if not it.startswith(f"crates/{CORE}/")]
    first = [it for it in paths if it not in within or it.startswith(f"crates/{CORE}/") and it.endswith("tests.rt")]
    return sorted(first, key=lambda it: (f"use {CORE}::" not in read(it), not it.startswith(FIRST), it)) + own


@functools.lru_cache(maxsize=None)
def by_home():
    """Returns the items that are shown, by their crates and their names there."""
    return {(it.crate, it.item.name): it for it in shown()}


@functools.lru_cache(maxsize=None)
def calls_of(entry):
    return {it.name: it for it in by_home()[entry].calls}


@functools.lru_cache(maxsize=None)
def only_ones():
    """Returns the calls whose names no other type has."""
    calls = [call for entry in by_home().values() for call in entry.calls]
    count = collections.Counter(it.name for it in calls)
    return {it.name: it.key for it in calls if count[it.name] == 1}


@functools.lru_cache(maxsize=None)
def laws():
    """Returns the keys of the laws, which are no methods."""
    entries = [it for it in by_home().values() if "::laws" in it.module]
    return {call.key for it in entries for call in it.calls}


def names_of(source):
    """Returns the types that a module knows by name, as (crate, name); of a library not its own, whose calls say little."""
    named = [it for it in source.names.items() if it[1][0] != "crate" or source.crate == CORE]
    meant = {name: sources().rust_name(source, path) for name, path in named}
    homes = {name: (it.crate, it.name) for name, it in meant.items() if it}
    return {name: home for name, home in homes.items() if home in by_home()}


def bare(kind):
    """Returns the name of a type without its references and parameters."""
    found = re.match(r"\s*(?:&(?:'\w+ )?)?(?:mut )?(?:dyn )?(?:[a-z_]\w*::)*([A-Z]\w*)", kind)
    return found.group(1) if found else ""


@functools.lru_cache(maxsize=None)
def fields_of(home):
    """Returns the types of the public fields of a struct."""
    found, by_name = {}, {made: (at, made) for at, made in by_home()}
    for text, _ in by_home()[home].fields:
        field = re.match(r"pub (\w+): (\w+)$", text)
        if field and field.group(2) in by_name:
            found[field.group(1)] = by_name[field.group(2)]
    return found


def along(home, fields):
    """Returns the type at the end of a chain of fields."""
    for field in filter(None, fields.split(".")):
        home = fields_of(home).get(field) if home else None
    return home


def call_at(home, name):
    """Returns the key of the call of the type, or of the generic type that it names."""
    if not home:
        return None
    entry = by_home()[home]
    if name in calls_of(home):
        return calls_of(home)[name].key
    base = (entry.crate, entry.base)
    return calls_of(base)[name].key if entry.base and base in by_home() and name in calls_of(base) else None


def types_in(header, body, known, own):
    """Returns the types of the names in a function. What is inside an `Option` or a `Result` parameter is
    what a `match` on it takes out."""
    found = {re.sub(r"(?<=.)([A-Z])", r"_\1", name).lower(): home for name, home in known.items()}
    if own:
        found["self"] = own
    for part in listed(header):
        name, _, kind = part.partition(":")
        name = without_prefix(name.strip(), "mut ")
        inner = re.match(r"\s*(?:Option|Result)<(.*)", kind)
        if bare(kind) in known:
            found[name] = known[bare(kind)]
        elif inner and bare(inner.group(1)) in known:
            for taken in re.findall(rf"match {name} \{{\s*(?:Some|Ok)\((?:mut )?(\w+)\)", body):
                found[taken] = known[bare(inner.group(1))]
    typed = [*ANNOTATED.findall(body), *LET.findall(body), *((name, kind) for kind, name in MATCHED.findall(body))]
    found.update((name, known[kind]) for name, kind in typed if kind in known)
    for name, start, fields in BORROWED.findall(body):
        if start in found and along(found[start], fields):
            found[name] = along(found[start], fields)
    return found


def made_on(line, known, types):
    """Yields the key of each call in a line, by the type that it is made on; and by its name, if only one call has it."""
    for kind, name in STATIC.findall(line):
        yield call_at(known.get(kind), name), name
    for kind, name in re.findall(r"\b([A-Z]\w+)::[A-Z]\w+\.(\w+)\(", line):
        yield call_at(known.get(kind), name), ""
    for start, fields, name in METHOD.findall(line):
        yield call_at(along(types.get(start), fields), name), name
    for name in re.findall(r"\)\??\.(\w+)\(", line):
        yield None, name
    for name in BARE.findall(line):
        if name in known and by_home()[known[name]].kind == "fn":
            yield (*known[name], name), ""
    for name in re.findall(r"\b(?:key|known_keys)::(\w+)\(", line):
        yield None, name


def lines_of(path):
    """Yields each line within a function, with its number, the names of the file and the types."""
    macros, within = macros_of(read(path)), [it for it in sources().files if it.path == path]
    every = [(source, one) for source in within for it in source.items for one in (it, *it.inner)]
    for source, item in [it for it in every if it[1].kind == "fn"]:
        opened = item.text.index("(")
        start = closing(blanked(item.text), opened)
        known = names_of(source)
        impl = sources().impl_of.get(item.owner)
        own = known.get(impl.type_name) if impl else None
        bound = {name: known[kind] for name, kind in BOUND.findall(item.text[:opened]) if kind in known}
        named = {**known, **bound}
        first, lines = item.line + item.text.count("\n", 0, start), item.text[start:].split("\n")
        for number, line in enumerate(lines, first):
            if "(" not in line:
                continue
            types = types_in(item.text[opened + 1 : start - 1], "\n".join(lines[: number - first + 1]), named, own)
            yield number, line.strip(), named, types
            for number, line in written_by(line, macros):
                yield number, line, named, types


def macros_of(text):
    """Returns the macros of a file: the names of their arguments, the first line and the lines of what they write."""
    found = {}
    for it in MACRO.finditer(text):
        names = re.findall(r"\$(\w+):", it.group(2))
        found[it.group(1)] = (names, text.count("\n", 0, it.start(3)) + 1, it.group(3).split("\n"))
    return found


def written_by(line, macros):
    """Yields the lines that a macro writes where this line calls it, each with its number in the macro."""
    called = re.search(r"\b(\w+)!\((.*)\)$", line.strip())
    if not called or called.group(1) not in macros:
        return
    names, first, lines = macros[called.group(1)]
    given = dict(zip(names, re.split(r", ", called.group(2))))
    for number, text in enumerate(lines, first):
        yield number, re.sub(r"\$(\w+)", lambda it: given.get(it.group(1), it.group(0)), text).strip()


def is_whole(text):
    """Returns whether each bracket in a text is closed there, and it is not the rest of a statement."""
    bare = re.sub(r"\"[^\"]*\"|'.'|[^()\[\]{}]", "", text)
    for _ in bare:
        bare = re.sub(r"\(\)|\[\]|\{\}", "", bare)
    return not text.startswith((".", "?")) and not bare


def said_by(line, name):
    """Returns what of a line is an example of the call of this name: of an arm or a field what stands right of it. Nothing
    of a part of a statement, and of a call on a bare `self`."""
    left, arrow, right = line.partition(" => ")
    text = without_suffix(re.sub(r"^\w+: ", "", right if arrow and is_whole(left) else line), ",")
    is_one = is_whole(text) and "$" not in text and not re.match(r"\W*self\.", text)
    return text if is_one and re.search(rf"\b{name}\b", text) else ""


def whole(path, number, line):
    """Returns the statement that a line is part of, in one line; if that is too long, the line itself."""
    if line.endswith("{") and is_whole(line[:-1]):
        return f"{line} .. }}"
    if is_whole(line) and line.endswith((";", ",", "}")):
        return line
    lines = read(path).split("\n")
    first = last = number - 1
    while first and lines[first].strip().startswith((".", "?", ")", "}")) and number - first < 8:
        first -= 1
    depth = len(lines[first]) - len(lines[first].lstrip())
    while last + 1 < len(lines) and last - first < 8 and (said := lines[last + 1].strip()):
        below = len(lines[last + 1]) - len(lines[last + 1].lstrip()) - depth
        if below < 0 or not below and not said.startswith((")", "}", "]")):
            break
        last += 1
        if said.endswith(";") and is_whole(joined(" ".join(lines[first : last + 1]))):
            break
    text = re.sub(r" (?=[.?])", "", joined(" ".join(lines[first : last + 1])))
    return text if first < last and is_whole(text) and len(text) <= LONGEST else line


def calls_in(path):
    """Yields each call of a file, as its key or as a name that only one call has, with the number and text of its line."""
    for number, line, known, types in lines_of(path):
        if line.startswith("//") or "fn " in line:
            continue
        for key, name in made_on(line, known, types):
            is_method = re.search(rf"\.{re.escape(name)}\(", line)
            if key or name in only_ones() and not (is_method and only_ones()[name] in laws()):
                yield key, key or only_ones()[name], number, line


def tried_keys():
    """Returns the keys of the calls that tests, programs of rows and users' programs make."""
    paths = [it for it in files() if re.match(rf"crates/(test_|example_|{CORE}/)", it)]
    return {key for path in paths for _, key, _, _ in calls_in(path)}


@functools.lru_cache(maxsize=None)
def examples():
    """Returns for each call's key the path, the number and the text of a statement that makes it, if one says something.
    A line that only names the call counts only if no line names its type too."""
    found, guessed = {}, {}
    for path, (is_typed, key, number, line) in [(path, it) for path in files() for it in calls_in(path)]:
        (found if is_typed else guessed).setdefault(key, []).append((path, number, line))
    chosen = {key: best(lines, key[-1]) for key, lines in {**guessed, **found}.items()}
    return {key: it for key, it in chosen.items() if it}


def best(lines, name):
    """Returns the first of the lines that say most of the call, as a whole statement where it is short; or nothing. Least
    says one within the library, then a call on `self`, and an arm of a `match`."""
    every = [(path, number, whole(path, number, re.sub(r" // .*", "", line))) for path, number, line in lines]
    rank = lambda it: (it[0].startswith("crates/iloc_"), "self." in it[2], " => " in it[2])
    shortened = [(path, number, said_by(line, name)) for path, number, line in sorted(every, key=rank)]
    return next((it for it in shortened if it[2]), None)


def faults():
    """Yields each call that no test, program of rows or user's program makes, as far as its type or its name shows; and how
    many calls have no example, if they are many."""
    made, every = tried_keys(), [it for entry in shown() if not entry.is_law for it in entry.calls]
    yield from (f"{it.title}: no test makes this call: add a row" for it in every if it.key not in made)
    lacking = [it.title for it in every if it.key not in examples()]
    if len(lacking) > 28:
        yield f"{len(lacking)} calls have no example: {', '.join(lacking)}"
