"""How contracts see types, and where names stand: the parts of docs/CLAUSES.md on signatures, types and imports.

All of it is printed from the sources, so that no signature, field, view, invariant or import can change unseen."""
import re

import trusted_graph as graph
import rattle as rt


def bare(text):
    """Returns a text of src/ on one line, without comments and attributes."""
    text = re.sub(r"#\[[^\]]*\]", " ", rt.without_comments(text))
    return re.sub(r"\(\s+|\s+\)", lambda it: it[0].strip(), " ".join(text.split()))


def shape(item):
    """Returns what a type holds: its fields, its variants, or the type that it is another name of."""
    text = re.sub(r"\bpub(\([^)]*\))?\s+", "", bare(item.text))
    if item.kind in ("type", "const"):
        return text.rstrip(";")
    flat = re.sub(r"<[^{;]*>(?=[^>]*[{(;])", lambda it: "." * len(it[0]), text.partition("{")[0] + "{")
    opened = re.search(r"[{(;]", flat).start()
    inner = text[opened : rt.closing(text, opened)] if text[opened] != ";" else ""
    inner = inner.strip("{} ").rstrip(",").replace(", }", " }")
    head = text[:opened].strip().partition(" where ")[0]
    return f"{head} {{ {inner} }}" if inner else head


def member(sources, item):
    """Returns a line for a ghost member, with the names of its text that stand for others."""
    body = " ".join(item.body.split())
    renamed = sorted(f"{word} is {name or '.'.join(path)}" for word, path, name in sources.brought_in(item, body) if word != (name or path[-1]))
    return f"{item.name} = {body}" + (f"  ({', '.join(renamed)})" if renamed else "")


def own(item):
    """Returns the name of the type in whose `impl` of `Model` a member stands, or nothing."""
    found = re.search(r"\bModel for ([\w:]+)", item.owner.name) if item.owner else None
    return found[1].split("::")[-1] if found else ""


def other_names(it):
    """Returns the `use` lines of names in a type that stand for others, as `Key` for `UnicodeKey`."""
    named = sorted({*re.findall(r"[A-Z]\w*", shape(it))} & {*it.module.names})
    paths = {name: it.module.names[name] for name in named}
    return [f"use {'::'.join(path)} as {name}" for name, path in paths.items() if path[-1] != name]


def types_part(sources, closure, place):
    """Returns the lines of the types and their members, by the files in which they stand."""
    blocks = {}
    for it in sorted([*closure.types, *closure.members], key=place):
        lines = blocks.setdefault(it.module.path, [])
        if it.kind != "ghost":
            lines += [line for line in other_names(it) if line not in lines]
            lines.append(shape(it))
        elif not own(it):
            owner = " ".join(it.owner.name.split())
            said = member(sources, it) if it.owner.kind == "impl" else f"{it.name} : {' '.join(it.body.split())}"
            lines.append(f"{owner}: {said}")
        elif it.name != "Value":
            kind = next((one.body for one in closure.members if one.owner is it.owner and one.name == "Value"), "")
            lines.append(f"    {own(it)}: {member(sources, it)}" + (f" : {' '.join(kind.split())}" if it.name == "view" else ""))
    said = [f"// {path}\n" + "\n".join(lines) for path, lines in blocks.items()]
    return "```text\n" + "\n\n".join(said) + "\n```"


def signatures_part(contracts):
    """Returns the calls as they are declared, by the files in which they stand, after the `use` lines of their types."""
    blocks = {}
    for it in contracts:
        calls = blocks.setdefault(it.item.module, [])
        calls.append(f"impl {it.item.owner.name} {{ {bare(it.item.before + it.item.head).rstrip(',')} }}")
    said = []
    for source, calls in blocks.items():
        named = {*re.findall(r"[A-Z]\w*", " ".join(calls))} & {*source.names}
        uses = [f"use {'::'.join(source.names[it])}{'' if source.names[it][-1] == it else f' as {it}'};" for it in named]
        said.append("\n".join([f"// {source.path}", " ".join(sorted(uses)), *calls]))
    return "```text\n" + "\n\n".join(said) + "\n```"


def texts(closure, contracts):
    """Yields (item, its text) of all that a closure holds: clauses, definitions and members."""
    for it, wanted in contracts:
        for _, text, stated in it.clauses(wanted) if isinstance(it, graph.Contract) else ():
            yield stated, text
    for it in [*closure.definitions, *closure.behind]:
        yield it, "\n".join(part[0] for part in it.parts)
    for it in closure.members:
        yield it, it.body


def names_part(sources, closure, contracts):
    """Returns which module of std each name comes from, and which names stand for others, by files."""
    from_std, renamed = {}, {}
    for item, text in texts(closure, contracts):
        for word, path, name in sources.brought_in(item, text):
            outside = len(path) < 2 or path[0] != "Rattle" or path[1] not in sources.rust
            if name is not None and outside:
                from_std.setdefault(".".join(path), set()).add(name)
            if word != (name or path[-1]):
                meant = ".".join([*path, *([name] if name else [])])
                renamed.setdefault(item.module.path, set()).add(f"`{word}` is `{meant}`")
    lines = ["Names of other libraries, by the modules that they are taken from:", ""]
    lines += [f"- `{path}`: {' '.join(f'`{it}`' for it in sorted(names))}" for path, names in sorted(from_std.items())]
    lines += ["", "Names that stand for others, by the files in which they do:", ""]
    lines += [f"- `{path}`: {', '.join(sorted(names))}" for path, names in sorted(renamed.items())]
    return "\n".join(lines)
