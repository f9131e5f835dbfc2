"""The public items of the crates: what `rattle` and `antt` read from the sources, put together."""
import functools
import re

import trusted_graph
from common import ROOT

CORE = "icu_locale_core"
IMPL = re.compile(r"impl(?:<.*?>)? (?:(.+?) for )?((\w+)(?:<.*>)?)$")
ALIAS = re.compile(r"pub type (\w+).* = ((\w+)(?:<.*>)?)$")


@functools.lru_cache(maxsize=None)
def sources():
    """Returns all crates as they are read."""
    return trusted_graph.Sources(ROOT)


class Crate:
    """The public items of a crate by name, and what its types implement."""

    def __init__(self, name):
        self.name, self.items, self.aliases, self.impls, self.given, self.passed = name, {}, {}, [], [], {}
        for source in sorted(sources().rust[name].values(), key=lambda it: it.path):
            if "tests" not in source.path:
                self.passed.update((shown, through(path)) for path, shown in source.passed if path[0].startswith("iloc_"))
                for item in source.items if not source.is_block else ():
                    self.read(item)

    def read(self, item):
        impl = IMPL.match(item.signature)
        if item.is_public:
            module = item.path.rpartition("/")[2].partition(".")[0]
            self.items[f"{module}::{item.name}"] = item
            self.items.setdefault(item.name, item)
        if alias := ALIAS.match(item.signature):
            self.aliases[alias.group(2)] = alias.group(1)
        if impl and impl.group(1):
            self.given.append((*impl.groups(), item))
        elif impl:
            self.impls.append((impl.group(2), impl.group(3), item))

    def calls(self, name):
        """Returns the public calls of the type, or of the kind that the alias names."""
        own = [item for whole, base, item in self.impls if name == self.aliases.get(whole, base)]
        return [it for item in own for it in item.inner if re.match(r"pub (const )?fn ", it.signature)]


@functools.lru_cache(maxsize=None)
def crate(name):
    return Crate(name)


def through(path):
    """Returns the crate and the name there of what a `pub use` of this path passes on."""
    return CORE if path[0] == "crate" else path[0], "::".join(path[1:][-2:])


def home_of(name, made):
    """Returns the crate that makes the item, and its name there: what a crate passes on is followed."""
    it = crate(name)
    alias = re.match(r"pub type \w+ = (\w+)$", it.items[made].signature) if made in it.items else None
    if alias and alias.group(1) not in it.items:
        there = it.items[made].module.names.get(alias.group(1))
        return home_of(there[0], alias.group(1)) if there else (name, made)
    if made in it.items or made not in it.passed or it.passed[made] == (name, made):
        return name, made
    return home_of(*it.passed[made])


def libraries():
    """Returns the names of the crates of the library, lowest first."""
    return [it for it in sources().crates if it == CORE or it in sources().under(CORE)]


@functools.lru_cache(maxsize=None)
def modules():
    """Returns each module of the public crate with its comment and what it passes on."""
    found = []
    for names, it in sources().rust[CORE].items():
        comment = it.doc if names else ["The types that a program meets first."]
        uses = [(*home_of(*through(path)), shown) for path, shown in it.passed if it.is_block or not names]
        if uses or not names:
            found.append(("::".join((CORE, *names)), comment, uses))
    return found
