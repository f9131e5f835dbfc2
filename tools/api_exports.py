"""Checks that users of icu_locale_core need no other crate: it passes on each law of the crates that it stands on, those
of the program among them, and each module of definitions that a contract cites which it passes on."""
import trusted_graph as graph
from api_model import is_law
from api_source import CORE, sources as all_sources
from common import below


def laws(sources):
    """Returns the public laws of the crates that icu_locale_core stands on."""
    crates = [it for it in below(CORE, sources.lines) if it != CORE]
    public = [it for it in sources.items if it.crate in crates and it.kind == "fn" and it.is_public]
    return [it for it in public if is_law(it) and it.module.path_names[-1:] != ("tests",)]


def cited(sources):
    """Returns the definitions that contracts of users cite, and all that these rest on: of clauses, members and views."""
    found = [one for it, _ in graph.public(sources) for one in (it.cites() if isinstance(it, graph.Contract) else sources.cites(it))]
    for item in graph.passed_on(sources, CORE):
        kind = sources.struct_of(item) if item.kind in ("struct", "enum", "type") else None
        seen = [it for it in sources.cites(kind) if it.kind == "ghost"] if kind else []
        found += [one for it in seen for one in sources.cites(it)]
    return [it for it in graph.reach(sources, found, graph.is_definition) if graph.is_definition(it)]


def faults():
    """Returns what is not passed on, each as a line; and how many laws and modules were looked at."""
    sources = all_sources()
    passed = set(graph.passed_on(sources, CORE))
    wanted = laws(sources)
    lib = sources.modules[("Rattle", CORE, "specs")]
    there = {path for name, path in lib.modules.items() if name in lib.passed}
    modules = dict.fromkeys(it.module.name for it in cited(sources))
    wrong = [f"{it.where}: the law {it.name} is not passed on by {CORE}: name it in a module of `laws`" for it in wanted if it not in passed]
    lost = [".".join(it) for it in modules if it not in there and it[1] != CORE]
    wrong += [f"{lib.path}: no `pub use {it}`, on whose definitions a contract rests" for it in lost]
    return wrong, len(wanted) + len(modules)
