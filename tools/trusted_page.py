"""The parts of docs/REVIEW.md and docs/CLAUSES.md that tools/trusted makes of the sources, and whether they are current.

A part stands between `<!-- trusted: WHAT -->` and `<!-- /trusted -->`, where WHAT is one of

- `counts`: how much the contracts rest on;
- `clause CALL NAME`: a clause of a contract, word for word;
- `files PATH ..`: the definitions of these files on which the headline rests, word for word; after
  a path may stand the names of the first and of the last one;
- `definition PATH NAME`: one that only laws cite, word for word;
- `signatures`: its calls as they are declared;
- `types`: the types and views through which its contracts see values, word for word;
- `names`: which names come from std, and which stand for others;
- `memory`: the clauses on memory, word for word, and what only they cite, by names and checksums;
- `outside`: how much of specs/ the headline does not rest on."""
import difflib
import hashlib
import os
import re
import textwrap

import common
import trusted_graph as graph
import trusted_types as types
from written import table

HEADLINE = ("Locale::try_from_utf8", "Locale::normalize_utf8", "Locale::is_well_formed", "Locale::write_to_string")
ON_MEMORY = "ensures memory"  # the one kind of clause that stands apart: it says when memory may run out
# what several types have, each its own: its value, its place in an enum, the items of its list, the
# list with others, the words of an error, how a value of a map is lent
ALIKE = ("value_of", "place", "items_of", "with_list", "words_of", "lends_value", "lends_slice", "lends_item")
PAGES = ("docs/REVIEW.md", "docs/CLAUSES.md")
NEEDED = ("counts", "signatures", "types", "names", "memory", "outside")  # the parts that some page has to have
PART = re.compile(r"<!-- trusted: (.+?) -->\n(.*?)<!-- /trusted -->", re.S)


class Wrong(Exception):
    """A part of the page that cannot be made."""


def headline(sources):
    return [(it, ()) for name in HEADLINE for it in graph.named(sources, name)]


def without_memory(sources, contracts):
    """Returns the closure of the contracts but for their clauses on memory."""
    named = lambda it, wanted: it.clauses(wanted) if isinstance(it, graph.Contract) else ()
    kept = lambda it, wanted: tuple(name for name, _, _ in named(it, wanted) if name != ON_MEMORY) or ("",)
    return graph.closure_of(sources, [(it, kept(it, wanted)) for it, wanted in contracts])


def lines_of(items):
    return sum(it.count() for it in items)


def counted(closure):
    files = lambda every: len({it.module.path for it in every})
    size = lambda every: f"{len(every)} definitions, {lines_of(every)} lines, {files(every)} files"
    silent = sum(not it.sentence() for it in closure.definitions)
    said = f"{size(closure.definitions)}; {silent} definitions have no sentence\nbeside these: {len(closure.types)} types"
    said += f" and {len(closure.members)} members, {lines_of(closure.types + closure.members)} lines"
    return said + (f"; through them alone {size(closure.behind)}" if closure.behind else "")


def unknown(sources):
    """Returns which names in what was read nothing in scope explains."""
    line = "{}: {} cites {}, which nothing in scope explains".format
    return [line(it.where, it.name, ", ".join(sorted(names))) for it, names in sources.unknown.items()]


class Pages:
    """The headline's closures, and the parts that are made of them."""

    def __init__(self, sources):
        self.sources = sources
        self.whole = graph.closure_of(sources, headline(sources))
        self.plain = without_memory(sources, headline(sources))
        self.placed, self.shown = set(), set()

    def part(self, what):
        kind, *words = what.split()
        made = getattr(self, f"part_{kind}", None)
        if made is None:
            raise Wrong(f"no part is called {kind!r}")
        return made(*words)

    def part_counts(self):
        meaning = graph.named(self.sources, HEADLINE[0])
        names = [name for name, _, _ in meaning[0].clauses()]
        kept = tuple(it for it in ("ensures reads", "ensures accepted", "ensures refused") if it in names)
        named = ", ".join(f"`{it.split()[1]}`" for it in kept)
        rows = [
            (f"parsing: {named} of `Locale::try_from_utf8`", without_memory(self.sources, [(meaning[0], kept)])),
            ("the whole headline", self.plain),
            ("with its clauses on memory", self.whole),
        ]
        lines = []
        for label, it in rows:
            files = {one.module.path for one in it.definitions}
            beside = [*it.types, *it.members, *it.behind]
            numbers = (len(it.definitions), lines_of(it.definitions), len(files), len(beside), lines_of(beside))
            lines.append((label, *(f"{one:,}" for one in numbers)))
        return table(("Contracts", "Definitions", "Lines", "Files", "Types, views and what these cite", "Lines"), lines)

    def part_clause(self, call, name=""):
        found = graph.named(self.sources, call)
        if len(found) != 1:
            raise Wrong(f"{call} names {len(found)} functions: name one in full")
        for kind, text, stated in found[0].clauses():
            if kind == f"ensures {name}".strip():
                self.shown.add((call, name))
                where = f"{stated.module.path}, `{stated.name}`"
                return f"{where}:\n\n```text\n{kind} {{ {dedented(text)} }}\n```"
        raise Wrong(f"{call} has no clause {name!r}: take the part out, or name another clause")

    def part_files(self, *words):
        """Shows the definitions of files, word for word. After a path may stand the first and the last one."""
        ordered = dict(self.plain.ordered(self.plain.definitions))
        shown = []
        for path, *ends in re.findall(r"(\S*/\S*)(?: ([^\s/]+) ([^\s/]+))?", " ".join(words)):
            if path not in ordered:
                raise Wrong(f"the headline rests on no definition of {path}: take the path out")
            found = between(ordered[path], *ends) if ends[0] else ordered[path]
            if not found:
                raise Wrong(f"{path} has no {ends[0]} and {ends[1]} after it on which the headline rests")
            self.placed.update(found)
            many = "1 definition" if len(found) == 1 else f"{len(found)} definitions"
            lines = sum(it.count() for it in found)
            shown.append(f"`{path}`: {many}, {'1 line' if lines == 1 else f'{lines} lines'}.")
            shown.append("```text\n" + "\n\n".join(quoted(it) for it in found) + "\n```")
        return "\n\n".join(shown)

    def part_definition(self, path, name):
        found = [it for it in self.sources.definitions() if (it.module.path, it.name) == (path, name)]
        if len(found) != 1:
            raise Wrong(f"{path} has {len(found)} definitions {name}: name one that it has")
        return f"`{path}`:\n\n```text\n{quoted(found[0])}\n```"

    def part_signatures(self):
        return types.signatures_part([it for it, _ in headline(self.sources)])

    def part_types(self):
        """Shows the types on the way: what they hold, how contracts see them, and what they always keep."""
        made = types.types_part(self.sources, self.whole, self.place)
        behind = dict.fromkeys([*self.plain.behind, *self.whole.behind])
        if behind:
            made += "\n\n```text\n" + "\n\n".join(map(quoted, behind)) + "\n```"
        return made

    def part_names(self):
        return types.names_part(self.sources, self.whole, headline(self.sources))

    def place(self, item):
        return self.sources.crates.index(item.crate), item.module.path, item.line

    def part_memory(self):
        plain = set(self.plain.definitions)
        only = [it for it in self.whole.definitions if it not in plain]
        lines = ["```text"]
        for call, kind, text in self.clauses():
            if kind == ON_MEMORY:
                lines.append(f"{call}: {kind} {{ {' '.join(text.split())} }}")
        said = f"They cite {len(only)} definitions of {lines_of(only)} lines that no other clause cites. These are their names, and in brackets"
        lines += ["```", "", f"{said} the first digits of the SHA-256 of their text without comments:", ""]
        for path, found in self.whole.ordered(only):
            lines.append(f"- `{path}` ({checksum(found)}): {', '.join(f'`{it.name}`' for it in found)}")
        return "\n".join(lines)

    def part_outside(self):
        every = [it for it in self.sources.definitions() if it.module.name[1].startswith(("iloc_", "icu_"))]
        said = f"`specs/` of the library holds {len(every):,} definitions in {lines_of(every):,} lines."
        said += f" These pages show {lines_of(self.plain.definitions):,} of these lines."
        return f"{said} The headline rests on no other, but for memory and for the views of stop 8."

    def made_of(self, path, text, wrong):
        """Returns the page of this text with its parts made anew. Notes what cannot be made."""

        def one(found):
            try:
                return f"<!-- trusted: {found[1]} -->\n{self.part(found[1])}\n<!-- /trusted -->"
            except (Wrong, TypeError) as why:
                wrong.append(f"{path}: the part '{found[1]}': {why}")
                return found[0]

        return PART.sub(one, text)

    def made(self, texts):
        """Returns the pages with their parts made anew, by their paths, and what is wrong with them."""
        wrong = []
        made = {path: self.made_of(path, text, wrong) for path, text in texts.items()}
        names = " and ".join(PAGES)
        there = {it[1] for text in texts.values() for it in PART.finditer(text)}
        wrong += [f"{names}: the part {it!r} is on neither page: add it" for it in NEEDED if it not in there]
        for it in self.plain.definitions:
            if it not in self.placed:
                wrong.append(f"{names}: {it.where}: {it.name} is at no stop: name it in a part 'files'")
        for call, kind, _ in self.clauses():
            word, _, name = kind.partition(" ")
            if word != "ensures":
                wrong.append(f"{names}: {call} has a clause '{kind}': a call of the headline asks nothing of its callers")
            elif kind != ON_MEMORY and (call, name) not in self.shown:
                wrong.append(f"{names}: the clause {name!r} of {call} is not shown: add a part 'clause {call} {name}'")
        named = [(it.where, name) for it in self.sources.definitions() for name in (it.name, *it.members)]
        taken = "{}: {} is a word of antt or of its prelude: name it otherwise".format
        wrong += [taken(*it) for it in named if it[1] in graph.antt.WORDS]
        return made, wrong

    def clauses(self):
        """Yields (call, kind and name, text) of each clause of the headline."""
        for call in HEADLINE:
            for it in graph.named(self.sources, call):
                for kind, text, _ in it.clauses():
                    yield call, kind, text


def between(definitions, first, last):
    """Returns the definitions from the first to the last of these names, or none if one is not there."""
    names = [it.name for it in definitions]
    return definitions[names.index(first) : names.index(last) + 1] if {first, last} <= set(names) else []


def quoted(definition):
    """Returns the comment and the text of a definition, without the words that say who may use it."""
    lines = ["-- " + it for it in definition.comment]
    lines += [re.sub(r"^(\s*)((abbrev|unfoldable|pub) )+", r"\1", it) for it in definition.lines]
    return "\n".join(lines).rstrip()


def checksum(definitions):
    """Returns a checksum of the text of definitions, without comments and blank lines."""
    lines = graph.antt.without_comments("\n".join(map(quoted, definitions))).split("\n")
    text = "\n".join(it.rstrip() for it in lines if it.strip())
    return hashlib.sha256(text.encode()).hexdigest()[:16]


def dedented(text):
    first, _, rest = text.partition("\n")
    return first + ("\n" + textwrap.indent(textwrap.dedent(rest), "    ") if rest else "")


def texts_of(sources):
    return {path: common.read(os.path.join(sources.root, path)) for path in PAGES}


def write(sources):
    made, wrong = Pages(sources).made(texts_of(sources))
    for path, text in made.items():
        common.write(os.path.join(sources.root, path), text)
    print("\n".join(wrong + [f"trusted: wrote {path}" for path in PAGES]))
    return 1 if wrong else 0


def stale(sources):
    """Returns what is wrong with the pages, which their parts are that are not what the sources give, and how many parts they have."""
    texts = texts_of(sources)
    made, wrong = Pages(sources).made(texts)
    parts = [(path, *it) for path, text in texts.items() for it in zip(PART.finditer(text), PART.finditer(made[path]))]
    outdated = []
    for path, old, new in parts:
        if old[2] != new[2]:
            changes = difflib.unified_diff(old[2].split("\n"), new[2].split("\n"), lineterm="", n=0)
            outdated.append(f"{path}: the part '{old[1]}' is not current: run tools/trusted --write\n" + "\n".join(list(changes)[2:12]))
    return wrong, outdated, len(parts)


def check(sources):
    """Says which parts of the pages are not what the sources give, and which definitions have no sentence."""
    wrong, outdated, count = stale(sources)
    wrong += unknown(sources)
    library, every = graph.closure_of(sources, graph.library(sources)), sources.definitions()
    wrong += [f"{it.where}: {it.name} has no sentence" for it in library.definitions if not it.sentence()]
    # (texts that differ in names of their own alone, signatures aside; and public names, but for what several types have alike)
    with_text = [it for it in every if it.kind not in ("abstract", "data", "record")]
    wrong += [f"the same text: {it}" for it in alike(with_text, lambda it: shape_of(sources, it))]
    with_name = [it for it in every if it.kind != "abstract" and it.is_public() and it.name not in ALIKE]
    wrong += [f"one name for two things: {it}" for it in alike(with_name, lambda it: it.name)]
    wrong += outdated
    print("\n".join(wrong) if wrong else f"trusted: {' and '.join(PAGES)} are current")
    failed = min(len(wrong), count) or len(wrong)
    return common.counted(max(count - failed, 0), failed)


def alike(definitions, key):
    """Returns for each group of definitions that have the same key their names and places."""
    groups = {}
    for it in definitions:
        groups.setdefault(key(it), []).append(f"{it.name} ({it.where})")
    return [", ".join(it) for it in groups.values() if len(it) > 1]


def shape_of(sources, definition):
    """Returns the clauses of a definition, with what each name means in the place of the name."""
    text = " ;; ".join(part[0] for part in definition.parts if part[1] == "clause")
    shape, bound = [], {}
    tokens = re.findall(r"\"[^\"]*\"|\.[^\s(){};,]+|[^\s(){};,]+|[(){};,]", text)
    for before, token, after in zip([""] + tokens, tokens, tokens[1:] + [""]):
        if after == "=" and before in ("{", ";"):
            shape.append(f"field {token}")
            continue
        sign = definition.module.operators().get(token, token)
        try:
            meant = sources.lookup(definition.module, token.rstrip(".").split("."))
        except graph.Unknown:
            meant = None
        if token == definition.name:
            shape.append("itself")
        elif meant:
            named = token.rstrip(".").split(".")[-1]
            shape.append(f"{meant[0]!r} {named if named in getattr(meant[0], 'members', ()) else ''}")
        elif sign in definition.module.items:
            shape.append(definition.module.items[sign][1])
        elif re.match(r"[^\W\d]", token) and token not in graph.antt.WORDS:
            name, dot, field = token.partition(".")
            shape.append(f"bound {bound.setdefault(name, len(bound))}{dot}{field}")
        else:
            shape.append(token)
    return tuple(shape)
