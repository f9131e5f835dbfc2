"""What a contract cites: the sources of all crates, and the closure of definitions, types and members.

A definition is an item of a file of specs/. Types stand in src/, and so do their members: the ghost
members of traits and `impl`s, as the `view` by which contracts see a type. The closure ends at std."""
import functools
import os
import pathlib
import re

import antt
import rattle as rt
from common import below, crates_of, reached, read, without_prefix
from rattle import bounds_in, generics, without_generics

SEEN = ("Value", "view", "invariant")  # the members of `Model` by which contracts see a type, and what it always keeps
PRIMITIVE = set("u8 u16 u32 u64 u128 usize i8 i16 i32 i64 i128 isize bool char str f32 f64".split())
QUOTE = re.compile(r"⟦<(.+?) as (\w+)(?:<[^⟧]*?>)?>⟧(?:\.(\w+))?")


class Unknown(Exception):
    """A name that nothing in scope explains."""


class Impl:
    """An `impl`: of which trait, for which type."""

    def __init__(self, item):
        self.item = item
        self.bounds, rest = generics(item.head)
        rest, _, where = rest.partition(" where ")
        self.bounds.update(bounds_in(where))
        flat = without_generics(rest)
        parts = re.split(r"\sfor\s", flat)
        self.type_text = re.split(r"\sfor\s", rest)[-1] if len(parts) > 1 else rest
        self.trait = parts[0].strip().split("::")[-1] if len(parts) > 1 else None
        self.type_name = parts[-1].strip().lstrip("&").strip()


class Sources:
    """All crates of a folder. Texts given by path stand in the place of the files'."""

    def __init__(self, root):
        self.root = root
        self.lines = crates_of(f"{root}/crates.txt")
        self.crates = list(self.lines)
        self.modules, self.rust = {}, {}
        self.unknown = {}  # what cites a name that nothing explains -> names
        for crate in self.crates:
            self.read_specs(crate)
            self.rust[crate] = rt.read_crate(root, crate)
        self.files = [source for made in self.rust.values() for source in made.values()]
        self.items = [it for source in self.files for it in source.items]
        self.impls = [Impl(it) for it in self.items if it.kind == "impl"]
        self.impl_of = {it.item: it for it in self.impls}

    def read_specs(self, crate):
        top = pathlib.Path(os.path.abspath(self.root), "crates", crate, "specs")
        for path in sorted(top.rglob("*.antt")):
            inner = path.relative_to(top).with_suffix("").parts
            name = ("Rattle", crate, "specs", *(inner[:-1] if inner[-1] == "Lib" else inner))
            self.modules[name] = antt.Module(name, os.path.relpath(path, self.root), read(path))
            antt.Reader(self.modules[name])

    def definitions(self):
        return [it for module in self.modules.values() for it in module.definitions]

    # Names of antt.

    def full(self, module, path):
        if path[0] == "package":
            return path[1:]
        if path[0] in module.children and path[0] != "Rattle":
            return module.name + path
        if path[0] in module.modules and module.modules[path[0]] != path:
            return self.full(module, module.modules[path[0]]) + path[1:]
        return path

    def item(self, path, name):
        """Returns the items that a name of the module at this path means; none for std's."""
        path, name = self.stands(path, name)
        if len(path) < 2 or path[0] != "Rattle" or path[1] not in self.rust or path[2:3] in (("proofs",), ("goals",)):
            return []
        if path[3:4] in (("declared",), ("contracts",)):
            return self.declared(path, name)
        module = self.modules.get(path)
        if module is None or name not in module.declared:
            raise Unknown(f"{'.'.join(path)} has no {name}")
        return [module.declared[name]]

    def passed_on(self, path):
        """Returns where the module of a path stands, which another module may pass on by `pub use`."""
        for size in range(len(path) - 1, 2, -1):
            if path in self.modules:
                return path
            outer = self.modules.get(path[:size])
            if outer and path[size] in outer.passed and path[size] in outer.modules:
                return self.passed_on(self.full(outer, outer.modules[path[size]]) + path[size + 1 :])
        return path

    def declared(self, path, name):
        """Returns the type that a module of declared types or of contracts is of."""
        inner = [it for it in path[4:] if it not in ("TheVariants", "TheConstants")]
        sources = self.rust[path[1]]
        if path[-1] == "TheConstants":
            return [it for made in sources.values() for it in made.items if it.kind == "const" and it.name == name][:1]
        for size in range(len(inner), -1, -1):
            source = sources.get(tuple(inner[:size]))
            wanted = inner[size] if size < len(inner) else name
            kinds = ("struct", "enum", "trait", "type")
            found = [it for it in (source.items if source else []) if it.name == wanted and it.kind in kinds]
            if found:
                return found[:1]
        raise Unknown(f"no type at {'.'.join(path)}")

    def lookup(self, module, names):
        """Returns what a path means in a module: items, none for std's and locals', or None for nothing."""
        head = names[0]
        if head in module.declared:
            return [module.declared[head]]
        head = module.operators().get(head, head)
        if head in module.items:
            path, name = module.items[head]
            found = self.item(self.full(module, path), name)
            own = [it for it in found if isinstance(it, antt.Definition) and it.members]
            if len(names) == 1 or head not in module.modules or any(names[1] in it.members for it in own):
                return found
        if len(names) > 1 and (head in module.modules or head in module.children or head in ("Rattle", "package")):
            path = self.full(module, tuple(names))
            for size in range(len(path) - 1, 1, -1):
                try:
                    return self.item(path[:size], path[size])
                except Unknown:
                    continue
            raise Unknown(".".join(names))
        return None

    # Names of Rust.

    def rust_path(self, crate, path):
        """Returns the item at a path that begins in the root of a crate."""
        made = self.rust.get(crate, {})
        count = next((at for at in range(len(path)) if path[: at + 1] not in made), len(path))
        return self.rust_name(made[path[:count]], path[count:]) if path[:count] in made and path[count:] else None

    def rust_name(self, source, path):
        """Returns the item that a path of Rust means in a module, or None for one of std."""
        head = path[0]
        found = [it for it in source.items if it.name == head and it.kind not in ("impl",)]
        if found:
            return found[0]
        if head in ("crate", "self", "super"):
            inner = {"crate": (), "self": source.path_names, "super": source.path_names[:-1]}[head]
            return self.rust_path(source.crate, inner + tuple(path[1:]))
        if len(path) > 1 and source.path_names + (head,) in self.rust[source.crate]:
            return self.rust_path(source.crate, source.path_names + tuple(path))
        if head in source.names and source.names[head] != tuple(path):
            return self.rust_name(source, source.names[head] + tuple(path[1:]))
        return self.rust_path(head, tuple(path[1:])) if head in self.rust else None

    def types_in(self, source, text, without=()):
        found = []
        for it in re.findall(rf"(?<![\w.'])(?:{rt.NAME}::)*[A-Z]\w*", rt.blanked(text)):
            path = tuple(it.split("::"))
            if path[0] in without or path[0] == "Self":
                continue
            item = self.rust_name(source, path)
            if item and item.kind in ("struct", "enum", "type"):
                found.append(item)
        return found

    def struct_of(self, item):
        """Returns the struct or enum that a type is, through aliases."""
        while item is not None and item.kind == "type":
            named = re.search(r"=\s*([\w:]+)", without_generics(item.text))
            item = self.rust_name(item.module, tuple(named[1].split("::"))) if named else None
        return item

    @functools.lru_cache(maxsize=None)
    def impls_of(self, item):
        """Returns the `impl`s of a type, or of the type that it is another name of."""
        found = []
        for it in self.impls:
            if not re.fullmatch(r"[\w:]+", it.type_name):
                continue
            meant = self.rust_name(it.item.module, tuple(it.type_name.split("::")))
            if meant and (meant is item or self.struct_of(meant) is item or meant is self.struct_of(item)):
                found.append(it)
        return found

    @functools.lru_cache(maxsize=None)
    def trait(self, source, name):
        """Returns the trait of this name in scope, if a crate here declares it."""
        item = self.rust_name(source, tuple(name.split("::")))
        return item if item and item.kind == "trait" else None

    # What an item cites.

    @functools.lru_cache(maxsize=None)
    def scope(self, item):
        """Returns a module of antt that stands for the ghost use lines in scope of an item of src/."""
        owner = item.owner or item
        made = antt.Module(("Rattle", item.crate, "src"), item.module.path, "")
        lines = item.module.ghost_uses + owner.uses + (item.uses if item is not owner else [])
        for text, _ in lines:
            for path, name, bound in antt.used(text):
                if name is None:
                    made.modules[bound] = path
                else:
                    made.items[bound] = (path, name)
        return made

    def trait_of(self, owner):
        """Returns a trait, or that of an `impl`, if a crate here declares it."""
        named = self.impl_of[owner].trait if owner.kind == "impl" else None
        return owner if owner.kind == "trait" else self.trait(owner.module, named) if named else None

    def member(self, owner, name):
        """Returns the ghost member of an `impl`, of its trait, or of what the trait stands on."""
        found, trait = [it for it in owner.inner if it.kind == "ghost" and it.name == name], self.trait_of(owner)
        if found or trait is None:
            return found
        return self.member(trait, name) if trait is not owner else self.bounded(owner.head.partition(":")[2], name, owner.module)

    def bounded(self, bounds, name, source):
        """Returns the member of this name of the first trait among bounds that has one."""
        traits = [self.trait(source, it) for it in re.findall(r"[\w:]+", without_generics(bounds))]
        return next(filter(None, (self.member(it, name) for it in traits if it)), [])

    def quoted(self, source, bounds, type_text, trait, member):
        """Returns what `⟦<Type as Trait>⟧.member` stands for: members, or for a derived trait those of the fields."""
        done, found = set(), []

        def of(item):
            if item is None or item in done:
                return
            done.add(item)
            found.append(item)
            inner = self.struct_of(item)
            by_hand = [it for it in self.impls_of(inner) if it.trait == trait] if inner else []
            if by_hand:
                found.extend(it for one in by_hand for it in self.member(one.item, member))
            elif inner and trait in inner.derives:
                for field in self.types_in(inner.module, inner.text):
                    of(field)

        for it in self.types_in(source, type_text, bounds):
            of(it)
        return found

    def bounds_of(self, item):
        """Returns the bounds of all type parameters in scope of an item of src/."""
        bounds, owner = {}, item.owner
        if owner and owner.kind == "impl":
            bounds.update(self.impl_of[owner].bounds)
        elif owner:
            bounds.update(generics(owner.head[len(owner.name) + 1 :])[0])
        if item.kind != "ghost":
            head = without_prefix(item.head.strip(), item.name)
            bounds.update(generics(head)[0])
            bounds.update(bounds_in(head.partition(" where")[2]))
        return bounds

    def cited_by_text(self, item, text, bound):
        """Returns what a clause or a ghost member of src/ cites."""
        scope, bounds, found = self.scope(item), self.bounds_of(item), []
        for it in QUOTE.finditer(text):
            found += self.quoted(item.module, bounds, it[1], it[2], it[3])
        text = QUOTE.sub(" tt ", text)

        def meant(names):
            if names[0] in bounds:
                return self.bounded(bounds[names[0]], names[-1], item.module) if len(names) > 1 else []
            if names[0] == "Self":
                return self.member(item.owner, names[-1]) if len(names) > 1 and item.owner else []
            in_antt = self.lookup(scope, names)
            if in_antt is not None:
                return in_antt
            if item.owner and (member := self.member(item.owner, names[0])):
                return member
            named = self.rust_name(item.module, tuple(names))
            if named:
                return [named] if named.kind in ("struct", "enum", "type", "const", "static") else []
            return [] if names[0] in PRIMITIVE or names[0] in item.module.names else None

        reader = antt.Names(meant, lambda names: self.is_constructor(scope, names), lambda it: self.note(item, it))
        reader.walk(antt.tree(text), set(bound))
        return found + reader.cited

    def is_constructor(self, module, names):
        """Returns whether a name in a pattern is a constructor, and so binds nothing."""
        if names[-1] in ("[]", "true", "false", "Some", "None", "Ok", "Err", "◌∷◌", "∷", "refl", "zero", "suc"):
            return True
        try:
            found = self.lookup(module, names)
        except Unknown:
            return True
        if not found:
            return found is not None and (names[0] in module.items or len(names) > 1)
        return any(it.kind == "enum" or names[-1] in getattr(it, "members", ()) for it in found)

    def note(self, item, name):
        self.unknown.setdefault(item, set()).add(name)

    def cited_by_definition(self, item):
        meant, is_constructor = (functools.partial(it, item.module) for it in (self.lookup, self.is_constructor))
        reader = antt.Names(meant, is_constructor, lambda it: self.note(item, it))
        reader.definition(item.parts)
        return [it for it in reader.cited if it is not item]

    def cited_by_type(self, item):
        """Returns the types of the fields, and the members by which contracts see the type."""
        bounds = generics(item.head.strip()[len(item.name) :])[0]
        text = re.sub(r"ghost\s+\w+\s*:\s*\{[^}]*\},?", " ", item.text)
        found = self.types_in(item.module, text, bounds)
        for it in self.impls_of(item) if item.kind != "type" else []:
            if it.trait == "Model":
                found += [one for one in it.item.inner if one.kind == "ghost" and one.name in SEEN]
        return [it for it in found if it is not item]

    def given_for(self, member):
        """Returns, for a ghost member of a trait, what each `impl` of the trait gives for it: `S.pairs` may be any."""
        if not member.owner or member.owner.kind != "trait":
            return []
        near = self.under("icu_locale_core") or set(self.crates)
        impls = [it.item for it in self.impls if it.item.crate in near and self.trait_of(it.item) is member.owner]
        return [one for it in impls for one in it.inner if one.kind == "ghost" and one.name == member.name]

    @functools.lru_cache(maxsize=None)
    def under(self, crate):
        return {*below(crate, self.lines)} - {crate}

    # Where names stand.

    def origin(self, module, word):
        """Returns (path, name) of what a word of a `use` line means, through what modules pass on; name is None for a module."""
        head = module.operators().get(word, word)
        if head in module.declared:
            return None
        if head in module.items:
            path, name = module.items[head]
            return self.stands(self.full(module, path), name)
        return (self.full(module, module.modules[head]), None) if head in module.modules else None

    def stands(self, path, name):
        path = self.passed_on(path) if len(path) > 3 else path
        module = self.modules.get(path)
        if module and name not in module.declared and name in module.passed and name in module.items:
            return self.stands(self.full(module, module.items[name][0]), module.items[name][1])
        return path, name

    def brought_in(self, item, text):
        """Yields (word, path, name) for each word of a text that a `use` line in the item's scope brings in."""
        module = item.module if isinstance(item, antt.Definition) else self.scope(item)
        text = antt.without_comments(text)
        for word in dict.fromkeys(re.findall(r"\"[^\"]*\"|«[^»]*»|[^\s(){};,⟦⟧]+", text)):
            head, _, rest = word.partition(".")
            found = self.origin(module, head.strip("«»"))
            if found:
                yield module.operators().get(head, head), *found
                last = rest.partition(".")[0]
                if found[1] is None and last:
                    path, name = self.stands(found[0], last)
                    if name != last:
                        yield f"{head}.{last}", path, name

    @functools.lru_cache(maxsize=None)
    def cites(self, item):
        """Returns what an item cites, once each, in the order of its text."""
        try:
            if isinstance(item, antt.Definition):
                found = self.cited_by_definition(item)
            elif item.kind in ("struct", "enum", "type"):
                found = self.cited_by_type(item)
            elif item.kind == "ghost":
                found = self.cited_by_text(item, item.body, ()) + self.given_for(item)
            else:
                found = []
        except Unknown as why:
            self.note(item, str(why))
            found = []
        return tuple(dict.fromkeys(found))


class Contract:
    """A function with the clauses that its callers rely on: its own, or those of its trait."""

    def __init__(self, sources, item, owner=None):
        self.sources, self.item, self.owner = sources, item, owner
        trait = sources.trait_of(owner.item) if owner else None
        above = [it for it in trait.inner if it.kind == "fn" and it.name == item.name] if trait else []
        self.all_stated = above + ([item] if item.clauses or not above else [])
        self.stated = self.all_stated[0]

    def label(self):
        named = self.owner.type_name if self.owner else ""
        return "::".join(filter(None, (self.item.crate, *self.item.module.path_names, named, self.item.name)))

    def clauses(self, wanted=()):
        """Yields (name, text, where it stands) of the clauses, or of those that are wanted, as `reads` or `ensures reads`."""
        for stated in self.all_stated:
            for (kind, name), (text, _) in stated.clauses.items():
                if not wanted or (name or kind) in wanted or f"{kind} {name}".strip() in wanted:
                    yield f"{kind} {name}".strip(), text, stated

    def parameters(self, stated):
        """Returns the names that the clauses of a function bind."""
        head = generics(stated.head.strip()[len(stated.name) :])[1]
        opened = head.find("(")
        inner = head[opened + 1 : rt.closing(head, opened) - 1] if opened >= 0 else ""
        bound = {"result", "self", *re.findall(rf"(?:^|[,(])\s*(?:mut\s+)?({rt.NAME})\s*:", inner)}
        return bound | {name for kind, name in stated.clauses if kind == "ghost"}

    def signature_types(self):
        bounds = self.sources.bounds_of(self.stated)
        types = self.sources.types_in(self.stated.module, self.stated.head, bounds)
        if self.owner and re.search(r"\bself\b|\bSelf\b", self.stated.head):
            types += self.sources.types_in(self.owner.item.module, self.owner.type_text, self.owner.bounds)
        return types

    def cites(self, wanted=()):
        """Returns what the clauses cite, and what the types of the signature are."""
        found = []
        for _, text, stated in self.clauses(wanted):
            try:
                found += self.sources.cited_by_text(stated, text, self.parameters(stated))
            except Unknown as why:
                self.sources.note(stated, str(why))
        if self.owner and self.owner.trait:
            found = [one for it in found for one in self.given(it)]
        return list(dict.fromkeys(found))

    def given(self, item):
        """Returns, for a member of the trait, the member that the `impl` gives for it, or the same."""
        if item.__class__ is rt.Item and item.kind == "ghost" and item.owner and item.owner.kind == "trait":
            own = [it for it in self.owner.item.inner if it.kind == "ghost" and it.name == item.name]
            return own or [item]
        return [item]


def is_definition(item):
    return isinstance(item, antt.Definition)


def reach(sources, roots, leads_on):
    return reached(roots, lambda it: sources.cites(it) if leads_on(it) else ())


class Closure:
    """All that some contracts cite, down to std. Definitions that only views and types lead to stand apart."""

    def __init__(self, sources, roots, types=()):
        self.sources = sources
        plain = reach(sources, roots, lambda it: is_definition(it) or it.kind == "ghost")
        self.definitions = [it for it in plain if is_definition(it)]
        everything = reach(sources, [*roots, *types], lambda it: True)
        direct = set(self.definitions)
        self.behind = [it for it in everything if is_definition(it) and it not in direct]
        self.types = [it for it in everything if isinstance(it, rt.Item) and it.kind in ("struct", "enum", "type", "const")]
        self.members = [it for it in everything if isinstance(it, rt.Item) and it.kind == "ghost"]

    def ordered(self, definitions):
        """Returns the definitions by files in reading order: a file after those that it rests on."""
        files = {}
        for it in definitions:
            files.setdefault(it.module.path, []).append(it)
        order, done = [], set()

        def visit(path):
            if path in done:
                return
            done.add(path)
            for it in sorted(files[path], key=lambda one: one.line):
                for cited in self.sources.cites(it):
                    if is_definition(cited) and cited.module.path in files:
                        visit(cited.module.path)
            order.append(path)

        for path in sorted(files, key=self.place):
            visit(path)
        return [(path, sorted(files[path], key=lambda one: one.line)) for path in order]

    def place(self, path):
        crate = path.split("/")[1]
        return self.sources.crates.index(crate), path


# Which contracts there are.

LAWS = set("laws respects_eq matches_eq matches_partial_cmp total remaining invariant inverse inverse_ok".split())


def data_members(sources, owner):
    """Returns the ghost members of a trait or an `impl` that say something; laws are proved facts about these."""
    trait = sources.trait_of(owner)
    if trait is None:
        return [it for it in owner.inner if it.kind == "ghost" and it.name not in LAWS]
    last = max((n for n, it in enumerate(trait.inner) if it.kind == "fn" and "final" not in it.text[:12]), default=0)
    data = {it.name for it in trait.inner[:last] if it.kind == "ghost"}
    return [it for it in owner.inner if it.kind == "ghost" and it.name in data]


def contracts_of(sources, item):
    """Yields the public contracts of an item that users see, and the members that state some of them."""
    if item.kind == "fn":
        yield Contract(sources, item)
    elif item.kind == "trait":
        for it in item.inner:
            if it.kind == "fn":
                yield Contract(sources, it)
        yield from data_members(sources, item)
    else:
        inner = sources.struct_of(item)
        for it in dict.fromkeys(sources.impls_of(item) + (sources.impls_of(inner) if inner else [])):
            for one in it.item.inner:
                if one.kind == "fn" and (one.is_public or it.trait) and it.trait != "Drop":
                    yield Contract(sources, one, it)
            if it.trait and it.trait != "Model":
                yield from data_members(sources, it.item)


def passed_on(sources, crate):
    """Returns the items that a crate's public modules name, at any depth."""
    files = [it for it in sources.rust[crate].values() if it.path_names[-1:] != ("tests",)]
    named = dict.fromkeys(sources.rust_name(it, path) for it in files for path in it.names.values())
    return [it for it in named if it is not None and it.kind != "impl" and it.crate != crate]


def offered(sources, crate):
    """Returns the public items that the root of a crate declares, or passes on from its own modules."""
    root = sources.rust[crate][()]
    named = [sources.rust_name(root, path) for path in root.names.values()]
    own = [it for it in root.items + named if it is not None and it.crate == crate and it.is_public]
    return [it for it in dict.fromkeys(own) if it.kind not in ("impl", "const")]


def closure_of(sources, chosen):
    """Returns the closure of contracts, each with the clauses that are wanted, and of members."""
    roots, types = [], []
    for it, wanted in chosen:
        if isinstance(it, Contract):
            roots += it.cites(wanted)
            types += it.signature_types()
        else:
            roots.append(it)
    return Closure(sources, roots, types)


def public(sources):
    """Returns all contracts that users of icu_locale_core reach."""
    return [(it, ()) for item in passed_on(sources, "icu_locale_core") for it in contracts_of(sources, item)]


def library(sources):
    """Returns all public contracts of the crates that icu_locale_core names in crates.txt."""
    names = sources.lines["icu_locale_core"].partition(":")[2].split()
    items = [it for crate in names if crate in sources.rust for it in offered(sources, crate)]
    return [(it, ()) for item in items for it in contracts_of(sources, item)]


def functions(sources):
    """Returns every function of the crates' sources with its `impl`."""
    return [Contract(sources, it, sources.impl_of.get(it.owner)) for it in rt.functions(sources.files)]


def named(sources, name):
    """Returns the contracts that a name as `Locale::try_from_utf8` or `iloc_spec_grammar::rewriting::any_steps` may mean.

    A method that a trait provides is found by the trait's name. A type may be named by an alias."""
    wanted = [it for it in name.replace("::", ".").split(".") if it]
    found = []
    for it in functions(sources):
        trait_name = it.item.owner.name if it.item.owner and it.item.owner.kind == "trait" else ""
        parts = [it.item.crate, *it.item.module.path_names]
        parts += [it.owner.type_name.split("::")[-1]] if it.owner else [trait_name] if trait_name else []
        parts.append(it.item.name)
        rest = iter(parts)
        near = parts[-2:] == wanted[-2:] or len(wanted) == 1 or parts[-2] not in (it.item.name,) and not it.owner and not trait_name
        if parts[-1] == wanted[-1] and all(one in rest for one in wanted) and near:
            found.append(it)
    return found
