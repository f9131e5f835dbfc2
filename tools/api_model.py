"""The public items of icu_locale_core as the pages show them: what each call needs, refuses and takes,
of its signature, its clauses and the table of words."""
import dataclasses
import functools
import itertools
import re
from collections import namedtuple

import api_words
from api_source import ALIAS, CORE, crate, libraries, modules, sources
from common import without_prefix

OURS = ("Writeable", "Sink", "Word", "WordKind", "Store", "PreferenceKey", "JsonText", "TextValue")
OF_STD = (
    "Clone Copy Debug Default Display Eq Error From FromStr Hash IntoIterator Iterator Ord PartialEq "
    "PartialOrd TryFrom Add AddAssign"
).split()
# A result that may be a refusal, with the name of its error type where that is written.
RESULT = re.compile(r"-> (?:[\w:]+::)?Result<.*?(?:, (\w+))?>(?: where .*)?$")
UNCHANGED = re.compile(r"OnErr result \((?:pairs )?self\.new ≡ (?:pairs )?self\.old\)")
# What stands for the refusals of a parser whose relation has no words.
WORDLESS = "`WORDLESS`"
# The module of keys by name, all of which stand only here.
KEYS_BY_NAME = "extensions::unicode::key"
OF_PREFERENCES = "Its key, what its value reads as, and the value that it is turned into."
GIVERS = {
    "Sink": "the sink", "FnMut": "the closure", "IntoIterator": "the iterator", "Read": "the reader", "Write": "the writer",
}


class Call(namedtuple("Call", "owner name item crate signature sentence details needs refuses memory rust key")):
    """A call: what it says, and the words of its contract."""

    @property
    def title(self):
        return f"{self.owner}::{self.name}" if self.owner else self.name


# A trait that a type has: its name, and what is special for the type.
Given = namedtuple("Given", "trait said")


@dataclasses.dataclass
class Entry:
    """A type, a trait or a function of a module."""

    module: str
    name: str
    kind: str
    item: object
    crate: str
    signature: str
    sentence: str
    details: list
    rust: str = ""
    base: str = ""
    fields: list = ()
    calls: list = ()
    given: list = ()
    see: str = ""
    refusal: str = ""

    @property
    def path(self):
        return f"{self.module}::{self.name}"

    @property
    def is_law(self):
        return self.kind == "fn" and is_law(self.item)


@dataclasses.dataclass
class Module:
    path: str
    comment: str
    entries: list

    @property
    def short(self):
        return short(self.path) or CORE


def short(path):
    """Returns a path within the public crate."""
    return without_prefix(without_prefix(path, CORE), "::")


def fits(table, fact):
    """Returns the words of the first row that fits the fact, or nothing."""
    for pattern, words in table:
        if found := re.match(pattern, fact):
            return found.expand(words)
    return ""


def explained(signature):
    """Returns what is said of names in the signature that are no public items."""
    return [said for name, said in api_words.EXPLAINED.items() if re.search(rf"\b{name}\b", signature)]


def needs(item):
    """Returns the conditions of a call in words; a clause without words is shown as it is."""
    facts = [it.fact for it in item.stated if it.kind == "requires"]
    return [fits(api_words.CONDITIONS, it) or f"`{it}`." for it in dict.fromkeys(facts)]


def unworded():
    """Returns the clauses that the table has no words for."""
    pairs = [(it, need) for entry in entries() for it in entry.calls for need in it.needs]
    found = [f"{it.title} needs {need}" for it, need in pairs if re.match(r"`[^`]*[ ≡][^`]*`\.$", need)]
    calls = [it for entry in entries() for it in entry.calls]
    return found + [f"the refusals of {it.title}" for it in calls if it.memory.startswith(WORDLESS)]


def unplaced():
    """Returns the paths of items of which nobody has said whether the Rust crate has them."""
    found = []
    for module in [it for it in model() if it.short != KEYS_BY_NAME]:
        known = api_words.IN_RUST.get(module.short, "").split()
        same = [it for it in module.entries if it.rust and it.rust.rpartition("::")[2] == it.name and not it.see]
        paths = [f"{module.short}::{it.name}" for it in same if it.name not in known]
        found += [it for it in paths if it not in api_words.OWN]
    return found


def enough(item):
    """Returns when the call surely allocates nothing."""
    found = {}
    for clause in item.stated:
        ends = re.match(r"(?:(.*) → )?(?:IsOk result|IsOkAnd result IsLent)$", clause.fact)
        if ends and clause.kind == "ensures":
            found[fits(api_words.ENOUGH, ends[1] or "") or f"`{ends[1]}`"] = True
        if re.match(api_words.ALWAYS, clause.fact):
            found["always"] = True
    return [*found]


def reader(home, made):
    """Returns the words of a relation: of its crate, or of its name where no other crate has it."""
    by_name = [it for it in api_words.READERS if it.endswith(f".{made}")]
    known = f"{home}.{made}"
    return api_words.READERS.get(known if known in api_words.READERS or len(by_name) != 1 else by_name[0])


def relation(item):
    """Returns the refusals of a parser and when it may run out of memory, of the relation that it states."""
    for name in re.findall(r"\b[A-Z]\w+", facts(item)):
        path, made = sources().scope(item).items.get(name, ((), ""))
        if path[:1] == ("Rattle",) and (words := reader(path[1], made)):
            return words
    return None


def kinds():
    """Returns each alias of a subtag with the refusal of its kind."""
    it = crate("iloc_subtags")
    kinds = [(base, item) for trait, _, base, item in it.given if trait.startswith("WordKind<")]
    found = {base: re.search(r"ParseError::(\w+)\n", item.text)[1] for base, item in kinds}
    words = [(alias, re.match(r"WordOf<(\w+)", whole)) for whole, alias in it.aliases.items()]
    return {alias: found[kind[1]] for alias, kind in words if kind}


def by_refusal():
    found = {}
    for alias, refusal in kinds().items():
        found.setdefault(refusal, []).append(f"`{alias}`")
    return [(refusal, ", ".join(names)) for refusal, names in found.items()]


def refuses(item, owner, name):
    """Returns each refusal of a call with when it comes, and when memory may run out."""
    if found := api_words.BY_CALL.get(f"{owner}::{name}" if owner else name):
        return found
    if not RESULT.search(item.signature):
        return [], None
    if found := relation(item):
        return found
    if "read K.kind K.refusal" in facts(item) or "ReadsRaw" in facts(item):
        what = "raw form of a normal subtag" if "ReadsRaw" in facts(item) else "subtag"
        if owner == "Language":
            return [("InvalidLanguage", "the bytes are no raw form of a language of 2 or 3 letters")], None
        return [(name, f"the bytes are no {what} of the kind ({among})") for name, among in by_refusal()], None
    is_wordless = re.search(r"\b_?alloc: Global", item.signature) and error_of(item) == "ParseError"
    return [], WORDLESS if is_wordless else None


def facts(item):
    return " ".join(it.fact for it in item.stated)


def error_of(item):
    """Returns the name of the call's error type."""
    found = RESULT.search(item.signature)
    return (found.group(1) or "") if found else ""


def is_law(item):
    """Returns whether the function is a law: it takes and returns nothing, and ensures a fact."""
    return bool(re.match(r"pub fn \w+(?:<.*>)?\(\)$", item.signature)) and bool(item.stated)


def memory(item, wants):
    """Returns what the call says of memory, of its signature and its clauses."""
    if is_law(item):
        return ""
    error, may_fail = error_of(item), "-> " in item.signature and "Result<" in item.signature
    name = "AllocError" if error == "AllocError" else "OutOfMemory"
    if "M: Ample" in item.signature:
        return "Its memory refuses nothing, so it never runs out of it."
    takes = re.search(r"\b_?alloc: Global|\b_?memory: M\b|\bcopying: C\b", item.signature) or item.crate == "iloc_memory"
    whens = enough(item)
    if takes and not may_fail:
        return "Keeps the allocator, and allocates nothing."
    if not takes and error != "AllocError":
        return "Takes no allocator, and never runs out of memory."
    if "always" in whens or takes and wants is None and error == "ParseError":
        return "Allocates nothing, and never returns out of memory."
    said = "May allocate" if takes else "May allocate, from the value's own allocator"
    if wants and wants[0] in "`M":
        return wants
    if wants and error != "AllocError":
        return f"May run out of memory (`{name}`), but only if {wants}." + nothing_if(whens)
    said = f"{said}: `{name}` if that fails."
    if UNCHANGED.search(facts(item)):
        said += " Then nothing has changed."
    return said + nothing_if(whens)


def nothing_if(whens):
    return f" Allocates nothing if {', or if '.join(whens)}." if whens else ""


def rust_of(module, name):
    """Returns the path of the item in the Rust crate; empty if it has none."""
    inner = short(module)
    if inner.startswith(api_words.OWN_MODULES):
        return ""
    special = api_words.OWN.get(f"{inner}::{name}")
    if special is not None:
        return special
    if inner in api_words.CRATES_OF_RUST:
        return f"{inner}::{name}"
    return f"{CORE}::{name}" if inner in ("langid", "locale", "data", "parser", "") else f"{CORE}::{inner}::{name}"


def call_of(item, owner, home, rust, made):
    """Returns a call, with what is said of memory where it runs code of its caller, and what stands in the Rust crate."""
    name = item.name
    given, wants = refuses(item, owner, name)
    sentence = api_words.SENTENCES.get(f"{owner}::{name}") or item.sentence()
    signature = expanded(without_prefix(item.signature, "pub "), home)
    givers = [words for it, words in GIVERS.items() if re.search(rf"[:+] (?:\w+::)?{it}\b", item.signature)]
    on_memory = memory(item, wants) + (f" What {' and '.join(givers)} takes is its own." if givers else "")
    own = api_words.OWN_CALLS_OF.get(f"{owner}::{name}", api_words.OWN_CALLS.get(name, f"{rust}::{name}")) if rust else ""
    # (what stands below `# Errors` the page's own list of refusals says)
    details = [*itertools.takewhile(lambda it: it != "# Errors", item.details()), *explained(signature)]
    return Call(owner, name, item, home, signature, sentence, details, needs(item), given, on_memory, own, (home, made, name))


@functools.lru_cache(maxsize=None)
def short_forms(home):
    """Returns what the aliases of tuples stand for that are no public items."""
    exported = {made for _, _, uses in modules() for it, made, _ in uses if it == home}
    aliases = [re.match(r"pub type (\w+) = (\(.*\))$", it.signature) for it in crate(home).items.values()]
    return {it[1]: it[2] for it in aliases if it and it[1] not in exported}


def expanded(signature, home):
    """Returns the signature with such aliases written out."""
    for name, meant in short_forms(home).items():
        signature = re.sub(rf"\b{name}\b", meant, signature)
    return signature


def fields_of(item):
    """Returns the comments and texts of the public fields or the variants."""
    rows, comment = [], []
    is_struct = item.signature.startswith("pub struct")
    for line in item.lines[1:]:
        bare = line.strip()
        if bare.startswith("///"):
            comment.append(bare[3:].strip())
        elif bare.startswith(("//", "#", "ghost ")) or not bare:
            comment = [] if not bare.startswith("#") else comment
        elif len(line) - len(line.lstrip()) == 4:
            wanted = bare.startswith("pub ") if is_struct else re.match(r"[A-Z]", bare)
            if wanted:
                rows.append((bare.rstrip(","), " ".join(comment).strip()))
            comment = []
    return rows


def given_by(trait, whole, base, item, name):
    """Yields what an `impl` gives the type, each trait with what the `impl` says."""
    bare = re.match(r"(?:fmt::)?(\w+)", trait).group(1)
    said = " ".join(item.paragraphs()[:1])
    if base != name:
        yield f"{trait} for {whole}", said
    elif bare == "TextValue":
        yield "JsonText", ""
    elif bare == "EnumKeyword":
        yield "PreferenceKey", OF_PREFERENCES
    elif bare in OF_STD or bare in OURS:
        yield without_prefix(trait, "fmt::"), said


def given_of(home, name):
    """Returns the traits of the type, each with what its `impl` says."""
    found = {it: "" for it in home.items[name].derives if it in OF_STD}
    for trait, whole, base, item in [one for it in libraries() for one in crate(it).given]:
        if base == name or re.match(rf"(?:Try)?From<&?{name}\b", trait):
            meant = sources().rust_name(item.module, (name,))
            if item.crate == home.name or meant and meant.crate == home.name:
                found.update(given_by(trait, whole, base, item, name))
    return [Given(trait, api_words.GIVEN.get(trait, said)) for trait, said in found.items()]


def entry_of(module, home, made, shown, seen):
    """Returns the entry of an item, an alias by its public name; of one that was seen only where it is described."""
    it = crate(home)
    if made not in it.items:
        raise SystemExit(f"list_api: no public item {made} in the crate {home}: see crates/{CORE}/src/lib.rt")
    item = it.items[made]
    kind, rust = item.kind, rust_of(module, shown)
    alias = ALIAS.match(item.signature)
    base = alias.group(3) if alias and alias.group(3) in it.items else ""
    is_alias, said = kind == "type", api_words.SENTENCES.get(shown) or item.sentence()
    head = item.signature.replace(f"type {made}", f"type {shown}") if is_alias else expanded(item.signature, home)
    entry = Entry(module, shown, kind, item, home, head, said, item.details(), rust, base)
    if (home, made) in seen:
        entry.see = seen[home, made]
        return entry
    seen[home, made] = entry.path
    if kind == "fn":
        call, entry.rust = call_of(item, "", home, rust, made), "" if entry.is_law else rust
        signature = re.sub(rf"\bfn {call.name}\b", f"fn {shown}", call.signature)
        entry.calls = [call._replace(name=shown, signature=signature, rust=entry.rust)]
    elif kind == "trait":
        inner = [at for at in item.inner if "fn " in at.signature]
        entry.calls = [call_of(at, shown, home, rust, made) for at in inner]
    else:
        entry.fields = fields_of(item) if kind in ("struct", "enum") else []
        in_order = sorted(it.calls(made), key=lambda at: (at.path != item.path, at.path, at.line))
        entry.calls = [call_of(at, shown, home, rust, made) for at in in_order]
        entry.given = given_of(it, made)
        refusal = kinds().get(made, "") if home == "iloc_subtags" else ""
        entry.refusal = refusal if refusal not in " ".join(entry.details) else ""
    return entry


def base_entry(entry):
    """Returns the entry of the generic type that an alias names."""
    it, base, home = crate(entry.crate), entry.base, entry.crate
    item = it.items[base]
    details = item.details() + explained(item.signature)
    made = Entry(entry.module, base, "struct", item, home, item.signature, item.sentence(), details)
    made.calls = [call_of(at, base, home, entry.rust, base) for at in it.calls(base)]
    made.given = given_of(it, base)
    return made


@functools.lru_cache(maxsize=None)
def model():
    """Returns the modules with their entries. A type that several paths lead to is shown at its own module."""
    found, seen = [], {}
    listed = modules()
    for path, comment, uses in listed[1:]:
        entries = []
        for home, made, shown in uses:
            if (home, made) in seen and any(it.path == seen[home, made] for it in entries):
                continue
            entries.append(entry_of(path, home, made, shown, seen))
            base = entries[-1].base
            if base and (entries[-1].crate, base) not in seen:
                entries.append(base_entry(entries[-1]))
                seen[entries[-1].crate, base] = entries[-1].path
        found.append(Module(path, " ".join(comment), sorted(entries, key=lambda it: it.is_law)))
    path, comment, uses = listed[0]
    found.insert(0, Module(path, " ".join(comment), [entry_of(path, *it, seen) for it in uses]))
    return found


def entries():
    return [it for module in model() for it in module.entries]


@functools.lru_cache(maxsize=None)
def shown():
    """Returns the entries that are described, and not only named."""
    return [it for it in entries() if not it.see]


def base_of(entry):
    """Returns the generic type that an alias names, or None."""
    return next((it for it in shown() if it.name == entry.base), None) if entry.base else None
