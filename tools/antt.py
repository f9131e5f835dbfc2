"""Reads definitions, the files of specs/: where each stands, which names its text cites, and which it binds.

Names are resolved as antt does: a bound variable first, then what the file declares, then what its
`use` lines bring, then modules by the last name of their path, by `as`, or by the whole path. A
name behind a dot is a field, unless what stands before the dots is a module or a type."""
import functools
import itertools
import re
from dataclasses import dataclass, field

from common import first_sentence, without_suffix

TOKEN = re.compile(r'"(?:[^"\\]|\\.)*"|[(){};,@]|«[^»]*»|[^\s(){}.;,@"«»]+|\.')
PART = r'(?:«[^»]*»|[^\s(){}.;,@"«»]+)'
# A bracket or a sign, a path `a.b`, and what is left out: a text in quotes, and `.f` after a bracket.
NODE = re.compile(rf'"(?:[^"\\]|\\.)*"|[(){{}};,@]|{PART}(?:\.{PART})*|\.{PART}?')
WORDS = {  # what antt itself and its prelude `Prim` provide, and no file declares
    "Type", "Unit", "tt", "absurd", "λ", "let", "in", "elim", "as", "record", "→", "×", "=", "↦", "|",
    ":", "[", "]", "_", "⊥", "¬", "IsProp", "IsSet", "refl", "where", "do", "∥", "∥₁", "unfold", "rw",
    "rw⁻¹", "simp", "search", "grw", "cc", "omega", "grind", "hlevel", "assumption", "first_of", "cap",
    "Prim", "suc", "zero", "open", "use", "deriving", "module", "⌜", "⌝", "𝓛", "Dec", "yes", "no",
}
OPENING, CLOSING = {"(": ")", "{": "}", "[": "]"}, set(")}]")


@dataclass(eq=False)
class Definition:
    """A definition of a file of specs/, with all that its text cites."""

    module: "Module"
    name: str
    kind: str
    line: int
    lines: list = field(default_factory=list)
    comment: list = field(default_factory=list)
    parts: list = field(default_factory=list)  # (text, how it binds names)
    members: list = field(default_factory=list)  # constructors, or fields

    where = property(lambda self: f"{self.module.path}:{self.line}")

    def sentence(self):
        """Returns the first sentence of the comment above it."""
        return first_sentence(" ".join(self.comment).strip())

    def is_public(self):
        return re.match(r"[^=:]*\bpub ", self.lines[0]) is not None

    def count(self):
        return sum(map(is_code, self.lines))

    def __repr__(self):
        return f"{'.'.join(self.module.name)}.{self.name}"


@dataclass(eq=False)
class Module:
    """A file of specs/: its `use` and `mod` lines, and its definitions by name."""

    name: tuple
    path: str
    text: str
    items: dict = field(default_factory=dict)  # name in use lines -> (module path, name there)
    modules: dict = field(default_factory=dict)  # name -> module path
    passed: set = field(default_factory=set)  # what `pub use` passes on
    children: set = field(default_factory=set)
    declared: dict = field(default_factory=dict)  # name -> Definition
    definitions: list = field(default_factory=list)

    @functools.lru_cache(maxsize=None)
    def operators(self):
        """Returns the operators that the file brings in, by each of their signs: `≡` is `◌≡◌`."""
        named = [it for it in self.items if "◌" in it]
        return {sign: it for it in named for sign in it.split("◌") if sign}


def split_path(text):
    """Returns the names of a path, in which an escaped name is one."""
    return [it.strip("«»") for it in re.findall(r"«[^»]*»|[^.\s]+", text)]


def used(text):
    """Yields (path, name, bound) for each item of a use line, or (path, None, bound) for a module."""
    text = re.sub(r"--.*", "", text).strip().rstrip(";")
    found = re.match(r"(.+?)\.\{(.*)\}$", text, re.S)
    if found:
        for it in filter(None, (part.strip() for part in found[2].split(","))):
            named, _, bound = it.partition(" as ")
            path = split_path(found[1]) + split_path(named)
            yield tuple(path[:-1]), path[-1], (bound or path[-1]).strip()
    else:
        named, _, bound = text.partition(" as ")
        path = split_path(named)
        yield tuple(path), None, (bound or path[-1]).strip()


def indent(line):
    return len(line) - len(line.lstrip())


def is_code(line):
    return bool(line.strip()) and not line.strip().startswith("--")


def without_comments(text):
    """Returns the text with blanks in the place of its comments."""
    return re.sub(r"(?m)(?:^|(?<=\s))--.*$", lambda it: " " * len(it[0]), text)


class Reader:
    """Reads a file's lines into its module."""

    def __init__(self, module):
        self.module, self.lines, self.bare = module, module.text.split("\n"), without_comments(module.text).split("\n")
        self.block(0, len(self.lines), [])

    def text(self, first, end):
        """Returns lines without their comments."""
        return "\n".join(self.bare[first:end]).strip()

    def chunks(self, start, end):
        """Yields the first and last line of each declaration, with its comment's lines."""
        code = [n for n in range(start, end) if is_code(self.lines[n])]
        if not code:
            return
        depth = indent(self.lines[code[0]])
        heads = [n for n in code if indent(self.lines[n]) <= depth and self.lines[n].strip()[0] not in CLOSING]
        for head, stop in zip(heads, [*heads[1:], end]):
            last = max(n for n in code if head <= n < stop)
            above = (it.strip() for it in reversed(self.lines[start:head]))
            comment = [it[2:].strip() for it in itertools.takewhile(lambda it: it.startswith("--"), above)]
            yield head, last + 1, comment[::-1]

    def block(self, start, end, params):
        current = None
        for head, stop, comment in self.chunks(start, end):
            text = self.text(head, stop)
            first = text.split()[0]
            if re.match(r"(unfoldable )?(pub )?use\b", text):
                self.use(text)
            elif re.match(r"(pub )?mod\b", text):
                self.module.children.add(text.split()[-1])
            elif first in ("infix", "infixl", "infixr"):
                pass
            elif first == "module":
                body = next(n for n in range(head, stop) if self.lines[n].rstrip().endswith("where"))
                named = re.match(r"module _ (.*?)\s+where$", self.text(head, body + 1), re.S)
                self.block(body + 1, stop, params + [named[1]])
            elif first == "unfolding" and current:
                current.lines += self.lines[head:stop]
            elif re.match(r"(pub )?(data|record)\b", text):
                current = self.shape(head, stop, comment, text, params)
            elif current and self.is_clause(text, current.name):
                current.lines += self.lines[head:stop]
                current.parts.append((text, "clause"))
            else:
                current = self.signature(head, stop, comment, text, params)

    def is_clause(self, text, name):
        tokens = TOKEN.findall(text)
        return tokens[0] == name and tokens[1:2] != [":"]

    def add(self, definition, params):
        definition.parts = [(it, "params") for it in params] + definition.parts
        self.module.declared[definition.name] = definition
        self.module.definitions.append(definition)
        return definition

    def signature(self, head, stop, comment, text, params):
        found = re.match(r"(?:(abbrev|unfoldable)\s+)?(?:pub\s+)?(?:(abbrev|unfoldable)\s+)?(\S+)\s*:?(.*)$", text, re.S)
        name, kind, parts = found[3].strip("«»"), found[1] or found[2] or "abstract", [(found[4], "type")]
        return self.add(Definition(self.module, name, kind, head + 1, self.lines[head:stop], comment, parts), params)

    def shape(self, head, stop, comment, text, params):
        found = re.match(r"(?:pub\s+)?(data|record)\s+(\S+)", text)
        made = Definition(self.module, found[2], found[1], head + 1, self.lines[head:stop], comment)
        body = next((n for n in range(head, stop) if self.lines[n].rstrip().endswith(" where")), stop - 1)
        header = without_suffix(self.text(head, body + 1), "where")
        made.parts = [(header[found.end() :], "params")]
        for at, end, _ in self.chunks(body + 1, stop):
            line = self.text(at, end)
            colon = re.search(r"\s:\s|$", line)
            names = re.findall(r"(?<!\S)(?!pub )\S+", line[: colon.start()])
            made.members += names
            made.parts.append((line[colon.end() :], "field" if found[1] == "record" else "constructor", names))
        self.add(made, params)
        if found[1] == "data":
            for it in made.members:
                self.module.declared.setdefault(it, made)
        return made

    def use(self, text):
        shared = "pub use" in text
        for path, name, bound in used(re.sub(r"^(unfoldable )?(pub )?use\s+", "", text)):
            if name is None:
                self.module.modules[bound] = path
            else:
                self.module.items[bound] = (path, name)
            if shared:
                self.module.passed.add(bound)


def tree(text):
    """Returns the tokens as nested lists; a path `a.b` is one token, and `.f` after a bracket is left out."""
    stack = [[]]
    for token in NODE.findall(text):
        if token in OPENING:
            stack.append([token])
        elif token in CLOSING:
            closed = stack.pop()
            stack[-1].append(closed)
        elif token == "." or token[0] not in '".':
            names = split_path(token) or [token]
            stack[-1].append(names[0] if names[0] in WORDS else ".".join(names))
    return stack[0]


def parts_of(nodes, separators):
    """Returns the runs of nodes between the separators."""
    runs = [[]]
    for it in nodes:
        if isinstance(it, str) and it in separators:
            runs.append([])
        else:
            runs[-1].append(it)
    return runs


class Names:
    """Finds the names that a text cites: found(path) returns what a path means, or None where it means nothing here."""

    def __init__(self, found, is_constructor, unknown):
        self.found, self.is_constructor, self.unknown = found, is_constructor, unknown
        self.cited = []

    def name(self, path, bound):
        names = path.split(".")
        if names[0] in bound or re.fullmatch(r"[0-9][0-9a-fA-F_xob]*", names[0]) or names[0].startswith("⟦"):
            return
        meant = self.found(names)
        if meant is not None:
            self.cited += meant  # a definition may be named as a word of the prelude, and counts before it
        elif names[0] not in WORDS:
            self.unknown(path)

    def pattern(self, nodes, bound):
        """Binds the variables of patterns, and cites their constructors."""
        for it in nodes:
            if isinstance(it, list):
                inner = it[1:]
                if it[0] == "{" and "=" in inner:
                    inner = inner[inner.index("=") + 1 :]
                self.pattern([n for n in inner if n not in (",", ";")], bound)
            elif self.is_constructor(it.split(".")):
                self.name(it, set())
            elif it in WORDS or re.fullmatch(r"[0-9].*", it):
                continue
            else:
                bound.add(it.split(".")[0])

    def binder(self, group, bound):
        """Binds what a group as (x y : A) or {x : A} binds; returns whether it is one."""
        inner = group[1:]
        if ":" not in inner or group[0] == "[":
            return False
        at = inner.index(":")
        if any(isinstance(it, list) for it in inner[:at]) and group[0] == "{":
            return False
        self.walk(inner[at + 1 :], set(bound))
        self.pattern(inner[:at], bound)
        return True

    def lambda_(self, nodes, at, bound):
        """Binds the variables of the λ at this place, and returns the place after its dot."""
        end = nodes.index(".", at) if "." in nodes[at:] else len(nodes)
        for it in nodes[at:end]:
            if isinstance(it, str):
                bound.add(it)
            elif not self.binder(it, bound):
                self.pattern([it], bound)
        return end + 1

    def let(self, nodes, at, bound):
        """Reads a let up to its `in`, and returns the place after that."""
        steps = ({"let": 1, "in": -1}.get(it, 0) if isinstance(it, str) else 0 for it in nodes[at:])
        depths = itertools.accumulate(steps, initial=1)
        end = next((n for n, depth in enumerate(depths, at - 1) if not depth), len(nodes))
        inner = nodes[at:end]
        equal = inner.index("=") if "=" in inner else len(inner)
        kind = inner.index(":") if ":" in inner[:equal] else equal
        self.walk(inner[kind + 1 : equal], set(bound))
        self.walk(inner[equal + 1 :], set(bound))
        self.pattern(inner[:kind], bound)
        return end + 1

    def group(self, group, bound):
        """Reads what stands in brackets; the scope of what it binds ends there."""
        kind, inner = group[0], group[1:]
        if kind == "[":
            for run in parts_of(inner, "|"):
                scope = set(bound)
                if "↦" in run:
                    self.pattern(run[: run.index("↦")], scope)
                    run = run[run.index("↦") + 1 :]
                self.walk(run, scope)
            return
        for run in parts_of(inner, ";,"):
            if kind == "{" and len(run) > 1 and run[1] == "=":
                run = run[2:]  # the name of a field, or of an implicit argument
            self.walk(run, set(bound))

    def walk(self, nodes, bound):
        """Cites the names of a term; what it binds holds up to its end."""
        at = 0
        while at < len(nodes):
            it = nodes[at]
            at += 1
            if isinstance(it, list):
                if not self.binder(it, bound):
                    self.group(it, bound)
            elif it == "λ":
                at = self.lambda_(nodes, at, bound)
            elif it == "let":
                at = self.let(nodes, at, bound)
            elif it not in (";", ",", "."):
                self.name(it, bound)

    def clause(self, nodes, bound):
        """Reads a clause of a definition: its patterns, and then its body."""
        equal = nodes.index("=") if "=" in nodes else len(nodes)
        scope = set(bound)
        self.pattern(nodes[1:equal], scope)
        self.walk(nodes[equal + 1 :], scope)

    def definition(self, parts):
        """Cites the names of all parts of a definition."""
        bound = set()
        for text, how, *names in parts:
            nodes = tree(text)
            if how == "clause":
                self.clause(nodes, bound)
            elif how == "type":
                self.walk(nodes, set(bound))
            elif how == "params":
                self.walk(nodes, bound)
            else:
                self.walk(nodes, set(bound))
                if how == "field":
                    bound |= set(names[0])
