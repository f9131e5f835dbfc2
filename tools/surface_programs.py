"""The programs of tools/benchmark --surface, made of the table of calls: each part of it in Rust and in Rattle.

Both read calls from standard input, so no compiler knows what they are given: how many there are, and then of each
its name, how many rounds it makes, and eight texts. For each they write its name and the sum of its answers."""
import re

from common import read
from surface_calls import CALLS

# (clang takes very long over one program of all calls)
PROGRAMS = 4
# The calls of one `match`, so that none grows large.
GROUP = 40
PARSED = r"FOUR(N?)\(([\w:]+), ([ab])\)"
VALUES = "FOUR(unicode::Value::try_from_str, a)"


def in_language(code, is_rattle):
    """Returns the code of a call with its marks replaced."""
    marks = (
        (r"KEYWORDS\((\w+)\)", keywords),
        (r"SINK", lambda it: "let mut out = String::with_capacity(~256)^;"),
        (r"PRINTED", lambda it: f"let w = [{four('v[{}].write_to_string([[R: alloc |C: ]])^')}];"),
        (PARSED, parsed),
        (r"KEEP\((\w+)\)", lambda it: f"keep(&{it[1]})" if is_rattle else f"black_box(&{it[1]})"),
    )
    for mark, new in marks:
        code = re.sub(mark, new, code)
    if is_rattle:
        code = code.replace("c == v[j]", "c == *v[j]")
    either = lambda it: it[1] if is_rattle else it[2]
    code = re.sub(r"\[\[R: (.*?) ?\|C: (.*?)\]\](?!\])", either, code, flags=re.S)
    return code.replace("~", "alloc, " if is_rattle else "").replace("^", "?" if is_rattle else "")


def parsed(found):
    given = "" if found[1] else "~"
    return f"[{four(f'{apart(found[2])}({given}t.{found[3]}[{{}}])?')}]"


def apart(parser):
    """Returns the name of the function that calls the parser apart."""
    return "p_" + re.sub(r"\W+", "_", parser).lower()


def parsers(calls, is_rattle):
    """Returns the functions that call the parsers apart, so that each stands in the program once."""
    marked = " ".join(f"{it.before} {it.body}" for it in calls)
    found = {(it[1], it[2]) for it in re.finditer(PARSED, re.sub(r"KEYWORDS\(\w+\)", VALUES, marked))}
    parts = []
    for without, parser in sorted(found):
        alloc, given = ("alloc: Global, ", "alloc, ") if is_rattle and not without else ("", "")
        kind = parser[: parser.rindex("::")]
        parts.append(f"""
#[inline(never)]
fn {apart(parser)}({alloc}text: &str) -> Result<{kind}, ParseError> {{
    Ok({parser}({given}text)?)
}}
""")
    return parts


def four(code):
    return ", ".join(code.format(at) for at in range(4))


def keywords(found):
    kind = f"match {found[1]}::try_from(&r[{{}}]) {{{{ Ok(k) => k, Err(_) => return Err(ParseError::InvalidSubtag) }}}}"
    return f"let r = {VALUES}; let v = [{four(kind)}];"


def lending(call):
    """Returns the code before a call and its body, with the parsed values lent: what finds one in an array goes by its
    size, and is no part of the call."""
    before = call.before
    for is_mut, name in re.findall(r"let (mut )?([vo]) = FOUR\(", before):
        names = four(f"{name}{{}}")
        before += f" let [{names}] = &{is_mut}{name}; let {is_mut}{name} = [{names}];"
    return before, re.sub(r"&([vo]\[\w+\])(?!\.)", r"\1", call.body) if before != call.before else call.body


def function(call, is_rattle):
    """Returns the function of a call. A number of its own keeps compilers from merging two functions."""
    own = 1000003 * (1 + CALLS.index(call))
    before, body = lending(call)
    alloc = "alloc: Global, " if is_rattle else ""
    return f"""
#[inline(never)]
fn b_{call.name.lower()}({alloc}rounds: u32, t: &Texts<'_>) -> Result<usize, ParseError> {{
    {in_language(before, is_rattle)}
    let mut sum = {own}usize;
    for round in 0..rounds {{
        let i = (round % 4) as usize;
        let j = (round / 4 % 4) as usize;
        sum = sum.wrapping_add({in_language(body, is_rattle)});
    }}
    Ok(sum)
}}
"""


def chosen(at, group, is_last, is_rattle):
    """Returns the function that makes one call of a group, or asks the next group."""
    alloc, given = ("alloc: Global, ", "alloc, ") if is_rattle else ("", "")
    arms = "\n".join(f'        "{it.name}" => b_{it.name.lower()}({given}rounds, t),' for it in group)
    rest = "Err(ParseError::InvalidLanguage)" if is_last else f"call_{at + 1}({given}call, rounds, t)"
    return f"""
fn call_{at}({alloc}call: &str, rounds: u32, t: &Texts<'_>) -> Result<usize, ParseError> {{
    match call {{
{arms}
        _ => {rest},
    }}
}}
"""


def program(calls, is_rattle):
    text = in_language(read("tools/surface_frame.txt"), is_rattle)
    groups = [calls[at : at + GROUP] for at in range(0, len(calls), GROUP)]
    parts = parsers(calls, is_rattle) + [function(it, is_rattle) for it in calls]
    parts += [chosen(at, it, at + 1 == len(groups), is_rattle) for at, it in enumerate(groups)]
    return text.replace("@CALLS@", "".join(parts))


def parts_of_calls():
    """Returns the calls of each part: both programs are cut alike, since what stands beside a call changes its code."""
    size = -(-len(CALLS) // PROGRAMS)
    return [CALLS[at : at + size] for at in range(0, len(CALLS), size)]


def questions(calls, rounds):
    """Returns what a program reads to make these calls."""
    lines = [str(len(calls))]
    for call in calls:
        lines += [call.name, str(rounds), *call.texts, *call.others]
    return "\n".join(lines) + "\n"
