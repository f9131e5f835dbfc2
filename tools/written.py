"""What the scripts that write sources from a table share: lines that are filled, places of a file that are replaced, and
files that are written, or with --check only compared."""
import os
import re
import sys
import textwrap

from common import counted, differing, parser, read, write

# (of code, and of definitions and proofs)
WIDTH, SPECS_WIDTH = 100, 110


def fill(units, width=WIDTH, first="", indent=""):
    """Returns the units with blanks between them, as many a line as fit."""
    how = {"break_long_words": False, "break_on_hyphens": False, "initial_indent": first, "subsequent_indent": indent}
    return textwrap.fill(" ".join(it.replace(" ", "\0") for it in units), width, **how).replace("\0", " ")


def table(head, rows):
    first, *lines = [f"| {' | '.join(map(str, it))} |" for it in (head, *rows)]
    return "\n".join([first, "|---" * len(head) + "|", *lines])


def svg(width, height, parts):
    """Returns a picture of this size: these parts on white."""
    head = f'<svg xmlns="http://www.w3.org/2000/svg" viewBox="0 0 {width} {height}" font-family="sans-serif" font-size="12">'
    return "\n".join([head, f'<rect width="{width}" height="{height}" fill="white"/>', *parts, "</svg>", ""])


def one_or_filled(head, names, tail, indent):
    """Returns head, the names in braces and tail: on one line if it fits, else as rt fmt lays out a list. (Of a line with
    braces rt fmt leaves the last two columns free.)"""
    line = f"{indent}{head}{{{', '.join(names)}}}{tail}"
    if len(line) <= WIDTH - 2:
        return line
    inner = indent + "    "
    return f"{indent}{head}{{\n{fill([f'{it},' for it in names], WIDTH - 1, inner, inner)}\n{indent}}}{tail}"


def shortened(text):
    """Returns definitions whose long lines are broken: an import has a line for each name, all else is broken at a blank."""
    lines = []
    for line in text.split("\n"):
        head, bracket, names = line.partition(".{")
        if len(line) <= SPECS_WIDTH:
            lines.append(line)
        elif line.startswith("use "):
            lines += [head + bracket, *(f"  {it}," for it in names[:-1].split(", ")), "}"]
        else:
            lines.append(fill(line.split(" "), SPECS_WIDTH, "", "    "))
    return "\n".join(lines)


def replaced(text, pattern, new, path):
    """Returns the text with the one place that the pattern finds replaced."""
    found = [*re.finditer(pattern, text, re.M)]
    if len(found) != 1:
        script = os.path.basename(sys.argv[0])
        sys.exit(f"{script}: {path}: {len(found)} places look like {pattern!r}, and there must be one")
    return text[: found[0].start()] + new + text[found[0].end() :]


def between(path, marks, text):
    """Returns the file with this text between its two lines that have these marks, each of which stands there once."""
    lines = read(path).split("\n")
    places = [[at for at, line in enumerate(lines) if it in line] for it in marks]
    if [len(it) for it in places] != [1, 1] or places[0] > places[1]:
        lost = f"{path} has not one line `{marks[0]}` and, below it, one line `{marks[1]}`"
        sys.exit(f"{os.path.basename(sys.argv[0])}: {lost}: put them where the text is to stand")
    return "\n".join([*lines[: places[0][0] + 1], text, *lines[places[1][0] :]])


def faults_of(path, rows, wrong_in_row, names):
    """Returns what is wrong with the rows of a table, each with its file and line: by itself, or that a row above has its
    name. `names` has what names there are, and the attributes that have them."""
    known, found = {}, []
    for row in rows:
        found += [(row, it) for it in wrong_in_row(row)]
        for what, attribute in names:
            own = getattr(row, attribute)
            first = known.setdefault((what, own), row.number)
            if own and first != row.number:
                found.append((row, f"the {what} `{own}` is already that of line {first}. Change one of the two rows"))
    return [f"{path}:{row.number}: {what}" for row, what in found]


def write_by_table(doc, path, table_of, all_files):
    """Runs a script that writes each file of which the text is not what a table says, or with --check only names it. It says
    instead what is wrong with the rows, if anything is. Returns its status."""
    script = os.path.basename(sys.argv[0])
    words = parser(f"tools/{script}", doc)
    words.flag("--check", "write nothing; say which files differ from the table")
    is_check = words.parse_args().check
    table, wrong = table_of(read(path))
    if wrong:
        print(*wrong, sep="\n", file=sys.stderr)
        return counted(0, len(wrong)) if is_check else 1
    return put_files(all_files(table), is_check, "the table")


def put_files(files, is_check, source):
    """Writes each of these files that has another text, or only names it, as not what its source says. Returns the status."""
    script, differ = os.path.basename(sys.argv[0]), differing(files)
    for it in differ:
        if not is_check:
            write(it, files[it])
        print(f"{script}: {it} {f'is not what {source} says: run tools/{script}' if is_check else 'written'}")
    return counted(not differ, bool(differ)) if is_check else 0
