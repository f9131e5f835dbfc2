"""The pages of public items as Markdown: an index, a page for each module, and the tables of other pages."""
import os
import re

import api_words
from api_examples import examples
from api_model import KEYS_BY_NAME, base_of, is_law, model, short, shown
from api_source import CORE
from common import ROOT, without_prefix
from written import table

HOME = "docs/api"
KEYS = (
    'macro `key!("ca")` of `extensions::unicode`', "`extensions::unicode::key`",
    "a function for each key of a keyword type, as `key::ca()`",
)
INDEX = f"""# Public items

Every public item that `{CORE}` passes on, one page for each module. Each call has:

- its signature, and what it does;
- what it needs, if it has a condition;
- each refusal by name, and when it comes;
- whether it may run out of memory;
- an example: a line of a program or a test that the gate runs, or what stands there right of `=>`. A call that only the library needs is shown by the library's own line; one that is made only on a bare `self` has none.

`tools/list_api` makes these pages of the sources, and `tools/list_api --check` says whether they are current. `grep -rn WORD docs/api` searches them. A contract stands where its link leads; `tools/trusted CALL`, as `tools/trusted Locale::clear`, prints its clauses with each definition that they cite. docs/FROM_RUST.md has the name of each item in the Rust crate.

- A call that may allocate has a parameter `alloc: Global`. It returns a `Result`, and running out of memory is one of its refusals.
- *Inline* means that a text has few enough parts to need no heap: docs/DEFINITIONS.md, "Texts that are parsed without memory", says how many.
- A *piece* is what stands between two hyphens. A *subtag* is a piece of one of eleven kinds.
- Subtags of all kinds are one type, `subtags::WordOf`, and sets of them one `WordSet`. Their names, as `Language` or `Variants`, are aliases. So an error message says `WordOf<RegionKind, 3>` for a `Region`.
"""


LAWS = "A law is a function that does nothing. Call it where a proof needs the fact that it states."


def slug(heading):
    return re.sub(r"[^\w -]", "", heading.lower()).strip().replace(" ", "-")


def page_of(module):
    return f"{HOME}/{(short(module) or CORE).replace('::', '.')}.md"


def link(entry_path, within):
    """Returns a link to an entry's heading, of a page in the same folder."""
    module, _, name = entry_path.rpartition("::")
    file = page_of(module).rpartition("/")[2]
    at = "" if module == within else file
    return f"[`{short(entry_path)}`]({at}#{slug(name)})"


def call_rows(call):
    rows = [f"#### `{call.title}`", "", f"    {call.signature}", "", call.sentence or "."]
    rows += ["", *[it for part in call.details for it in (part, "")]] if call.details else [""]
    facts = [f"- Needs: {it}" for it in call.needs] + ["- Refuses:"] * bool(call.refuses)
    facts += [f"  - `{name}` if {when}." for name, when in call.refuses]
    facts += [f"- Memory: {call.memory}"] * bool(call.memory)
    for path, number, line in [examples()[call.key]] if call.key in examples() else []:
        facts.append(f"- Example: `{line}` in [{without_prefix(path, 'crates/')}](../../{path}#L{number})")
    facts += [f"- States: `{it.fact}`" for it in call.item.stated if is_law(call.item)]
    labels = ", ".join(f"`{it.label}`" for it in call.item.stated if it.label and it.kind != "requires")
    named = f", clauses {labels}" if labels else ""
    if call.item.stated:
        path = call.item.path
        facts.append(f"- Contract: [{without_prefix(path, 'crates/')}](../../{path}#L{call.item.line}){named}")
    return rows + facts + [""]


def after_colon(said):
    """Returns what is said of a name before it, if anything is."""
    return f": {said}" if said else ""


def trait_rows(entry, homes):
    """Returns the traits of a type: those of std in a line, ours linked, with what is special."""
    ours = [it for it in entry.given if it.trait in homes]
    others = [it for it in entry.given if it.trait not in homes]
    plain = [f"`{it.trait}`" for it in others if not it.said]
    rows = [f"- {link(homes[it.trait], entry.module)}{after_colon(it.said)}" for it in ours]
    rows += [f"- `{it.trait}`{after_colon(it.said)}" for it in others if it.said]
    line = [f"Traits: {', '.join(plain)}.", ""] if plain else []
    return line + rows + ([""] if rows else [])


def entry_rows(entry, homes):
    rows = [f"### `{entry.name}`", "", f"    {without_prefix(entry.signature, 'pub ')}", ""]
    if entry.see:
        return rows + [f"Described at {link(entry.see, entry.module)}.", ""]
    if entry.kind == "fn":
        return [it.replace("#### ", "### ") for it in call_rows(entry.calls[0])]
    rows += [entry.sentence or ".", ""] + [it for part in entry.details for it in (part, "")]
    if entry.refusal:
        rows += [f"Its refusal is `{entry.refusal}`.", ""]
    if base_of(entry):
        rows += [f"It is a {link(base_of(entry).path, entry.module)}, and has its calls and traits.", ""]
    rows += [f"- `{text}`{after_colon(said)}" for text, said in entry.fields] + [""]
    rows += trait_rows(entry, homes)
    if entry.name == "JsonText":
        rows += ["Types that have it: " + ", ".join(link(it, entry.module) for it in json_types()) + ".", ""]
    return rows + [it for call in entry.calls for it in call_rows(call)]


def json_types():
    """Returns the paths of the types that are written as JSON strings."""
    has = {it.name for it in shown() if any(given.trait == "JsonText" for given in it.given)}
    return [it.path for it in shown() if it.name in has - {"WordOf"} or it.base == "WordOf" and "WordOf" in has]


def trait_homes():
    """Returns the paths of the public traits by their names."""
    return {it.name: it.path for it in shown() if it.kind == "trait"}


def module_page(module):
    rows = [f"# `{module.path}`", "", module.comment, "", "[All modules](../API.md)", ""]
    for entry in module.entries:
        rows += ["## Laws", "", LAWS, ""] if entry.is_law and "## Laws" not in rows else []
        rows += entry_rows(entry, trait_homes())
    return re.sub(r"\n{3,}", "\n\n", "\n".join(rows)).rstrip() + "\n"


def index():
    """Returns the page that leads to the others."""
    rows = []
    for module in model():
        names = ", ".join(f"`{it.name}`" for it in module.entries if not it.is_law)
        if any(it.is_law for it in module.entries):
            names = f"{names}; laws" if names else "laws"
        file = without_prefix(page_of(module.path), "docs/")
        rows.append((f"[`{module.path}`]({file}): {module.comment}", names))
    return f"{INDEX.rstrip()}\n\n{table(('Module', 'Items'), rows)}\n"


def pages():
    made = {page_of(it.path): module_page(it) for it in model()}
    made["docs/API.md"] = index()
    return made


def rust_row(entry):
    """Returns the row of a type: what changes, and what has another name. None if all is as it is."""
    changed, named = {}, []
    for call in entry.calls:
        # (what changes but for the allocator and `?`)
        change = api_words.CHANGES.get(f"{call.owner}::{call.name}")
        if call.rust and call.rust.rpartition("::")[2] != call.name:
            named.append(f"`{without_prefix(call.rust, entry.rust + '::')}`: `{call.name}`")
        elif call.rust and change:
            changed.setdefault(change, []).append(f"`{call.name}`")
    said = [f"{', '.join(names)}: {how}" for how, names in changed.items()]
    here, there = f"`{short(entry.path)}`", api_words.BASES.get(entry.name) or f"`{short(entry.rust)}`"
    return (there, here, "; ".join(named + said)) if said or named or there != here else None


def broken_links(made):
    """Returns each link within these pages that leads to no page or to no heading."""
    headings, faults = {path: set(map(slug, re.findall(r"(?m)^#+ (.*)$", text))) for path, text in made.items()}, []
    for path, text in made.items():
        folder = path.rpartition("/")[0]
        for target, place in re.findall(r"\]\(([\w./]*\.md)?#?([\w-]*)\)", text):
            page = os.path.normpath(f"{folder}/{target}") if target else path
            if page not in headings and not os.path.isfile(f"{ROOT}/{page}"):
                faults.append(f"{path}: no page {target}")
            elif place and page in headings and place not in headings[page]:
                faults.append(f"{path}: no heading {place} in {page}")
    return faults


def from_rust_table():
    """Returns the table of the Rust crate's items that have another path, name or form here."""
    rows = []
    for module in model():
        if module.short == KEYS_BY_NAME:
            rows.append(KEYS)
            continue
        for entry in module.entries:
            is_base = entry.calls and entry.calls[0].rust and not entry.rust
            is_law_of_ours = entry.kind == "fn" and entry.calls and is_law(entry.calls[0].item)
            if not entry.see and (entry.rust or is_base) and not is_law_of_ours:
                rows.append(rust_row(entry))
    return table(("Rust crate 2.4.0", "Here", "Rust's call: ours"), filter(None, rows))
