"""How the calls of tools/calls.txt are written in Rattle, C, C++, Rust and Python."""
import re

from call_table import HANDLES, NUMBERS, PLACES, RESULTS, TEXTS
from written import WIDTH, fill, one_or_filled

WIDE = 120  # the width of lines in C, C++ and Rust
OPERATORS = {"◌≡◌": "≡", "◌↔◌": "↔"}


# A parameter in each language: a handle, a text, a number, a place to write to, and the place for an answer.
PARAMETERS = {
    "Rattle": (
        "{own}: &mut {held}", "{text}: &[u8]", "{name}: {rust}", "{name}: &mut {rust}",
        "buffer: &mut [u8], needed: &mut usize",
    ),
    "C": (
        "{const}icu_locale_t *{handle}", "const uint8_t *{text}, size_t {length}", "{c} {name}", "{c} *{name}",
        "uint8_t *buffer, size_t room, size_t *needed",
    ),
    "Rust": (
        "{handle}: *{access} icu_locale_t", "{text}: *const u8, {length}: usize", "{name}: {rust}", "{name}: *mut {rust}",
        "buffer: *mut u8, room: usize, needed: *mut usize",
    ),
    "Python": ("_LOCALE", "*_TEXT", "{python}", "{python}", "*_BUFFER"),
}


def parameters(row, language):
    """Yields what a call takes, in this language."""
    for name in row.takes:
        kind = next((at for at, it in enumerate((HANDLES, TEXTS, NUMBERS, PLACES)) if name in it), -1)
        rust, c, python = NUMBERS.get(name) or PLACES.get(name) or ("", "", "")
        own = "handle" if name in ("reads", "changes") else name
        held, access, const = ("Handle", "mut", "") if name == "changes" else ("Lent", "const", "const ")
        length = row.length_of(name) if name in TEXTS else ""
        given = {"handle": HANDLES.get(name), "text": TEXTS.get(name), "rust": rust, "c": c, "python": python}
        given.update(name=name, own=own, held=held, access=access, const=const, length=length)
        yield from PARAMETERS[language][kind].format(**given).split(", ")


def head_with(head, parameters, tail, width):
    """Returns the head of a function in Rattle or Rust: on one line if it fits, else with a line for each parameter."""
    line, indent = f"{head}{', '.join(parameters)}{tail}", head[: len(head) - len(head.lstrip())]
    return line if len(line) <= width else "\n".join([head, *[f"{indent}    {it}," for it in parameters], f"{indent}{tail}"])


# Rattle: the exports.


def clauses(row):
    gives, answered = row.clause, "IsTrue result ↔" if row.gives == "bool" else "result ≡"
    if row.kind == "tell":
        answered, gives = "EndsAs", f"(Tells ({gives}) buffer.old buffer.new needed.new) result"
    if row.kind in ("tell", "ask"):
        yield f"ensures {{ IsAsked handle.old handle.new (λ it. {answered} {gives}) }}"
    elif row.kind == "change":
        yield f"ensures {{ IsChanged ({gives}) handle.old.value handle.new.value result }}"
    else:
        gives = re.sub(r"\bfrom\b", "that", gives)
        changed = f"IsChanged ({gives}) handle.old.value handle.new.value result"
        yield f"ensures {{ IsAsked from.old from.new (λ that. {changed}) }}"


def kept_together(clause):
    """Returns the words of a clause. A short group in parentheses is one word, and so is what ends the clause."""
    opened, letters = [], [*clause]
    for at, it in enumerate(clause):
        if it == "(":
            opened.append(at)
        elif it == ")":
            start = opened.pop()
            if at - start < 60:
                letters[start:at] = clause[start:at].replace(" ", "\0")
    words = "".join(letters)[:-2].split(" ")
    return [it.replace("\0", " ") for it in (*words[:-1], f"{words[-1]} }}")]


# Which function of iloc_handles an export calls, and how.
CALLS = {
    "tell": ("tell", "tell(alloc, handle, &{}, buffer, needed)"),
    "ask": ("ask", "ask(alloc, handle, &{})"),
    "change": ("make_change", "make_change(alloc, handle, &{})"),
    "by": ("change_by", "change_by(alloc, handle, from, {})"),
}


def export(row):
    given = ["alloc: Global", *parameters(row, "Rattle")]
    line = head_with(f'pub extern "C" fn {row.symbol}(', given, f") -> {RESULTS[row.gives][0]}", WIDTH)
    kept = "\n".join(fill(kept_together(it), WIDTH, "    ", " " * 8) for it in clauses(row))
    body = CALLS[row.kind][1].format(row.thing)
    return f"/// {row.says}\n#[unsafe(no_mangle)]\n{line}\n{kept}\n{{\n    {body}\n}}\n"


def ghost_uses(imports, texts):
    """Returns the imports, each with those of its names that the clauses name."""
    used, lines = {*re.findall(r"(?<![\w.])\w+", texts)}, []
    for line in imports:
        head, names = re.fullmatch(r"(.*)\{(.*)\};", line).groups()
        is_used = lambda it: OPERATORS[it] in texts if it in OPERATORS else it.split(" as ")[-1] in used
        kept = [it for it in names.split(", ") if is_used(it)]
        if kept:
            lines.append(f"{head}{{{', '.join(kept)}}};")
    return "\n".join(lines)


def module(says, rows, imports, made):
    uses = ghost_uses(imports, " ".join(it for row in rows for it in clauses(row)))
    names = {"Handle" if at == "changes" else "Lent" for it in rows for at in it.takes if at in HANDLES}
    names |= {CALLS[it.kind][0] for it in rows}
    names.update(it for row in rows for it in re.findall(r"(?<![\w:])[A-Z]\w*", row.thing))
    calls = one_or_filled("use iloc_handles::", sorted(names), ";", "")
    functions = "\n".join(map(export, rows))
    return f"//! {says}\n// {made}\n{uses}\n\n{calls}\nuse std::alloc::Global;\n\n{functions}"


# C: the declarations.


def never_null(row):
    """Returns the numbers of the parameters in C that are handles or places to write to."""
    named = {f"*{it}" for it in (*PLACES, "needed")}
    words = enumerate(parameters(row, "C"), 1)
    return [at for at, it in words if "icu_locale_t *" in it or it.split()[-1] in named]


def attributes(row):
    """Returns the macros before a declaration in C."""
    strict, handles = never_null(row), [it for it in row.takes if it in HANDLES]
    if not strict:
        first = "extern"
    elif not handles and len(strict) == 1:
        first = f"ICU_LOCALE_WRITES({strict[0]})"
    else:
        both = "_BOTH" if len(handles) == 2 and "changes" in handles else ""
        first = f"ICU_LOCALE_TAKES{both}(({', '.join(map(str, strict))}))"
    return first + ("" if row.gives in ("status?", "u32", "nothing") else " ICU_LOCALE_TELLS")


def declaration(row):
    given, head = [*parameters(row, "C")] or ["void"], attributes(row)
    own = [f'ICU_LOCALE_BOTH("{row.symbol}_or_itself")'] if "_BOTH" in head else []
    units = [*[f"{it}," for it in given[:-1]], f"{given[-1]})", *own, "ICU_LOCALE_NOEXCEPT;"]
    start = f"{head}{' ' if head == 'extern' else chr(10)}{RESULTS[row.gives][1]} {row.symbol}("
    first, last = start[: start.rfind("\n") + 1], start[start.rfind("\n") + 1 :]
    return first + fill(units, WIDE, last, "    ")


# Rust: the declarations of sys.rs.


def rust_declaration(row):
    gives = f" -> {RESULTS[row.gives][0]};" if row.gives != "nothing" else ";"
    return head_with(f"    pub fn {row.symbol}(", [*parameters(row, "Rust")], f"){gives}", WIDE)


# Python: the forms of the calls.


def python_forms(rows):
    """Returns what Python says of all calls but `version`, which it asks before it knows them."""
    rows = [it for it in rows if it.name != "version"]
    others = "".join(f'    "{it.name}": {RESULTS[it.gives][2]},\n' for it in rows if RESULTS[it.gives][2])
    given = [(it.name, [*parameters(it, "Python")]) for it in rows]
    forms = "".join(f'    "{name}": ({", ".join(it)}{"," * (len(it) == 1)}),\n' for name, it in given)
    return f"_FORMS = {{\n{forms}}}\n_RETURNS: Dict[str, Any] = {{\n{others}}}\n"
