"""The items of a crate's src/ that contracts go through: types, traits, `impl`s with their ghost members,
and functions with their clauses. It reads them by their brackets, and knows no more of Rattle than that."""
import functools
import itertools
import os
import re
from dataclasses import dataclass, field

from common import first_sentence, read, without_prefix, without_suffix

SKIP = re.compile(r"//[^\n]*|\"(?:[^\"\\]|\\.)*\"|b?'(?:[^'\\\n]|\\[^\n]{1,6}?)'", re.S)
NAME = r"[A-Za-z_]\w*"
ITEM = re.compile(
    rf"\s*((?:pub(?:\([^)]*\))?\s+)?)(?:(?:const|unsafe|final|default|async)\s+)*"
    rf"(ghost\s+use|ghost|use|mod|struct|enum|trait|impl|fn|type|const|static|macro_rules!)\b"
)
# An attribute up to its bracket, and what else stands between items.
ATTRIBUTE, REST = re.compile(r"\s*#!?(?=\[)"), re.compile(rf"\s*(?:{NAME}!|\S)")


def blanked(text):
    """Returns the text with comments and quoted texts blank, all else where it was."""
    return SKIP.sub(lambda it: re.sub(r"[^\n]", " ", it[0]) if it[0][0] == "/" else " " * len(it[0]), text)


def without_comments(text):
    return SKIP.sub(lambda it: "" if it[0][0] == "/" else it[0], text)


def joined(text):
    """Returns the text in one line, as a person writes a short signature."""
    text = re.sub(r"\s+", " ", text).strip()
    return text.replace("( ", "(").replace(", )", ")").replace("< ", "<").replace(", >", ">")


def depths(text):
    """Returns how many brackets are open behind each sign of a text; an arrow has none."""
    brackets = {**dict.fromkeys("<({[", 1), **dict.fromkeys(">)}]", -1)}
    return [*itertools.accumulate(brackets.get(it, 0) for it in re.sub("[-=]>", "  ", text))]


def listed(text):
    """Returns the parts of a text between its commas, but for those in brackets."""
    ends = [at for at, (it, depth) in enumerate(zip(text, depths(text))) if it == "," and not depth]
    return [text[start:end] for start, end in zip([0, *(it + 1 for it in ends)], [*ends, len(text)])]


def without_generics(text):
    """Returns the text without what stands in angle brackets."""
    after = depths(re.sub(r"[(){}\[\]]", " ", text))
    return "".join(it for it, *depth in zip(text, [0, *after], after) if not any(depth))


def generics(head):
    """Returns the bounds of the type parameters of a head, and what follows them."""
    text = head.strip()
    end = depths(text).index(0) if text.startswith("<") else -1
    return bounds_in(text[1 : max(end, 1)]), text[end + 1 :].strip()


def bounds_in(text):
    """Returns the bounds of parameters that are written as `K: Ord + Drop, const N: usize`."""
    found = {}
    for name, _, bound in (it.partition(":") for it in listed(text)):
        name = name.replace("const ", "").strip()
        if name and not name.startswith("'"):
            found[name] = found.get(name, "") + " " + bound
    return found


@dataclass(eq=False)
class Clause:
    """A clause of a contract: requires or ensures, its label, and its fact."""

    kind: str
    label: str
    fact: str


@dataclass(eq=False)
class Item:
    """A type, a trait, an `impl`, a function, or a ghost member."""

    module: "Source"
    kind: str
    name: str
    line: int
    head: str  # up to the clauses and the body
    comment: list
    text: str = ""  # all of it
    inner: list = field(default_factory=list)
    clauses: dict = field(default_factory=dict)  # name -> (kind, text, line)
    stated: list = field(default_factory=list)  # the clauses, but for ghost ones, in their order
    doc: list = field(default_factory=list)  # the lines after `///`
    before: str = ""  # what stands before its name, as `pub fn`
    is_public: bool = False
    attributes: list = field(default_factory=list)  # the lines of them above it
    owner: "Item" = None  # the trait or `impl` in which it stands
    uses: list = field(default_factory=list)  # its ghost use lines
    body: str = ""  # of a ghost member, or with its braces of a function
    at: int = 0  # where its keyword stands
    inside: tuple = ()  # where the body of a function begins and ends

    where = property(lambda self: f"{self.module.path}:{self.line}")
    crate = property(lambda self: self.module.crate)
    path = property(lambda self: self.module.path)
    lines = property(lambda self: self.text.split("\n"))

    @property
    def derives(self):
        given = [it.partition("derive")[2].partition(";")[0] for it in self.attributes]
        return tuple(it for text in given for it in re.findall(NAME, text) if it[0].isupper())

    @functools.cached_property
    def signature(self):
        """The text up to the clauses and the body, in one line."""
        return without_suffix(joined(self.before + self.head), ",")

    def paragraphs(self):
        """Returns the paragraphs of the comment, without its examples."""
        text = re.sub(r"```text\n.*?```", "", "\n".join(self.doc), flags=re.S)
        return [" ".join(it.split()) for it in re.split(r"\n ?\n", text) if it.strip()]

    def sentence(self):
        return first_sentence((self.paragraphs() or [""])[0])

    def details(self):
        """Returns what the comment says after its first sentence."""
        whole = self.paragraphs()
        rest = [without_prefix(whole[0], self.sentence()).strip()] + whole[1:] if whole else []
        return [it for it in rest if it]

    def count(self):
        """Returns how many lines its text has, without comments, attributes and blank lines."""
        return sum(bool(it.strip()) and not it.strip().startswith(("//", "#[")) for it in self.lines)

    def __repr__(self):
        where = "::".join((self.module.crate, *self.module.path_names))
        owner = f"{self.owner.name}." if self.owner else ""
        return f"{where}::{owner}{self.name}"


@dataclass(eq=False)
class Source:
    """A module of a crate: a file, or a block `mod name { .. }` of one."""

    crate: str
    path_names: tuple
    path: str
    items: list = field(default_factory=list)
    ghost_uses: list = field(default_factory=list)
    names: dict = field(default_factory=dict)  # name -> path, by `use` lines
    passed: list = field(default_factory=list)  # (path, name) of `pub use` lines
    is_block: bool = False
    doc: list = field(default_factory=list)  # of a block
    mods: set = field(default_factory=set)


def closing(text, at):
    """Returns the place after the bracket that closes the one at this place."""
    depth = 0
    for found in re.compile(r"[(){}\[\]]").finditer(text, at):
        depth += 1 if found[0] in "({[" else -1
        if not depth:
            return found.end()
    raise ValueError("an open bracket")


def comment_above(lines, line):
    """Returns the lines of the comment above a line, counted from 0, those after `///`, and the attributes."""
    comment, doc, attributes, above, is_doc = [], [], [], line - 1, True
    while above >= 0:
        bare = lines[above].strip()
        if bare.startswith("//"):
            comment.insert(0, bare.lstrip("/!").strip() or " ")
            is_doc = is_doc and bare.startswith("///")
            doc[:0] = [bare[4:].rstrip() or " "] if is_doc else []
        elif bare.startswith("#[") or bare.endswith("]") and "#[" in "\n".join(lines[max(0, above - 6) : above + 1]):
            attributes.insert(0, bare)
        else:
            break
        above -= 1
    return comment, doc, attributes


def expanded(text):
    """Yields (path, bound) for each name of a Rust `use` line."""
    text = text.strip()
    found = re.match(r"^(.*?)\{(.*)\}$", text, re.S)
    if not found:
        path, _, bound = text.partition(" as ")
        names = [it.strip() for it in path.split("::")]
        if names[-1] == "self":
            names.pop()
        yield tuple(names), (bound.strip() or "".join(names[-1:]))
        return
    for part in filter(str.strip, listed(found[2])):
        for path, bound in expanded(part):
            before = tuple(it.strip() for it in found[1].split("::") if it.strip())
            yield before + path, bound or before[-1]


class Reader:
    """Reads the items of a text into its module, and those of the files below src/ that its `mod` lines name."""

    def __init__(self, source, text, made, top):
        self.text, self.blank, self.lines = text, blanked(text), text.split("\n")
        self.made, self.top = made, top
        made[source.path_names] = source
        self.items(source, 0, len(text), None)

    def line(self, at):
        return self.text.count("\n", 0, at)

    def items(self, source, at, end, owner):
        while at < end:
            found, attribute = ITEM.match(self.blank, at), ATTRIBUTE.match(self.blank, at, end)
            rest = REST.match(self.blank, at, end)
            if found:
                start = found.start() + len(found[0]) - len(found[0].lstrip())
                at = self.item(source, found[2].split(), start, found.end(), owner, found[1].strip() == "pub")
            elif attribute:
                at = closing(self.blank, attribute.end())
            else:
                at = rest.end() if rest else end

    def item(self, source, kind, start, at, owner, is_public):
        """Reads the item that begins there, and returns the place after it."""
        if kind == ["ghost", "use"] or kind == ["use"] or kind == ["mod"]:
            return self.line_item(source, kind, at, owner, is_public)
        if kind == ["macro_rules!"]:
            return closing(self.blank, self.blank.index("{", at))
        line = self.line(start)
        comment, doc, attributes = comment_above(self.lines, line)
        named = re.compile(rf"\s*({NAME})").match(self.blank, at)
        made = Item(source, kind[0], named[1] if named else "", line + 1, "", comment, is_public=is_public)
        made.at = at - len(kind[0])
        made.attributes, made.owner, made.doc = attributes, owner, doc
        if made.kind == "ghost":
            end = self.ghost(made, at)
        else:
            made.before, end = self.text[start:at], self.rest(source, made, at)
        made.text = self.text[start:end]
        if owner or made.kind != "ghost":
            (owner.inner if owner else source.items).append(made)
        return end

    def line_item(self, source, kind, at, owner, is_public):
        stop = self.blank.index(";", at)
        if kind == ["mod"]:
            name = re.match(rf"\s*({NAME})\s*(;|\{{)", self.blank[at:])
            source.mods.add(name[1])
            inner = source.path_names + (name[1],)
            if name[2] == "{":
                opened = self.blank.index("{", at)
                doc = comment_above(self.lines, self.line(at))[1]
                block = Source(source.crate, inner, source.path, is_block=True, doc=doc)
                block.ghost_uses, self.made[inner] = list(source.ghost_uses), block
                end = closing(self.blank, opened)
                self.items(block, opened + 1, end - 1, None)
                return end
            for path in (f"{'/'.join(inner)}.rt", f"{'/'.join(inner)}/mod.rt"):
                read_file(self.made, source.crate, inner, self.top, path)
            return stop + 1
        text = self.text[at:stop]
        if kind == ["use"]:
            for path, bound in expanded(text):
                source.names[bound] = path
                source.passed += [(path, bound)] if is_public else []
        elif owner:
            owner.uses.append((text, self.line(at) + 1))
        else:
            source.ghost_uses.append((text, self.line(at) + 1))
        return stop + 1

    def ghost(self, made, at):
        """Reads a ghost member, and returns the place after it. It is `ghost name: { type };`, also with `= { term }` after
        the type, or `ghost name = { term };`."""
        opened = re.compile(rf"\s*{NAME}\s*[:=]\s*\{{").match(self.blank, at).end()
        end = closing(self.blank, opened - 1)
        made.body = self.text[opened : end - 1]
        default = re.compile(r"\s*=\s*\{").match(self.blank, end)
        end = closing(self.blank, default.end() - 1) if default else end
        stop = re.compile(r"\s*[;,]").match(self.blank, end)
        return stop.end() if stop else end

    def rest(self, source, made, at):
        """Reads what follows the item's name, and returns the place after its end."""
        start = at
        while True:
            found = re.compile(r"[\[({;]|\b(?:requires|ensures)\b\*?|\bghost\b(?!\s+use)").search(self.blank, at)
            if found is None:
                return len(self.text)
            sign = found[0]
            if sign in "([":
                at = closing(self.blank, found.start())
            elif sign in ("{", ";"):
                made.head = made.head or self.text[start : found.start()]
                if sign == ";":
                    return found.end()
                return self.body(source, made, found.start())
            elif made.kind != "fn":
                at = found.end()
            else:
                made.head = made.head or self.text[start : found.start()]
                at = self.clause(made, found)

    def clause(self, made, found):
        opened = self.blank.index("{", found.end())
        end = closing(self.blank, opened)
        name = self.blank[found.end() : opened].strip().rstrip(":").strip()
        kind = found[0].rstrip("*")
        text = self.text[opened + 1 : end - 1].strip()
        made.clauses[(kind, name)] = (text, self.line(found.start()) + 1)
        made.stated += [Clause(found[0], name, re.sub(r"\s+", " ", text))] if kind != "ghost" else []
        stop = re.compile(r"\s*,").match(self.blank, end)
        return stop.end() if stop else end

    def body(self, source, made, opened):
        end = closing(self.blank, opened)
        if made.kind in ("trait", "impl"):
            made.name = made.name if made.kind == "trait" else " ".join(made.head.split())
            self.items(source, opened + 1, end - 1, made)
        elif made.kind == "fn":
            made.body, made.inside = self.text[opened:end], (opened, end)
        return end


def functions(sources):
    """Returns the functions of these modules, those of traits and `impl`s too."""
    return [it for source in sources for item in source.items for it in (item, *item.inner) if it.kind == "fn"]


def read_file(made, crate, names, top, path):
    """Reads a file of a crate, if it is there, and adds its modules to those that were made."""
    if os.path.isfile(f"{top}/{path}"):
        Reader(Source(crate, names, f"crates/{crate}/src/{path}"), read(f"{top}/{path}"), made, top)


def read_text(text):
    """Returns the modules in a text by their paths, without those of other files."""
    made = {}
    Reader(Source("", (), ""), text, made, os.devnull)
    return made


def read_crate(root, name):
    made, top = {}, os.path.abspath(f"{root}/crates/{name}/src")
    read_file(made, name, (), top, "lib.rt")
    if not made:
        read_file(made, name, (), top, "main.rt")
    return made
