"""The table tools/calls.txt: its rows, what a call takes in each language, and what is wrong with the form of a row, by file
and line. What a row says wrongly the compilers and the prover find in what is written from it."""
import re

from written import faults_of

TABLE = "tools/calls.txt"
KINDS = ("tell", "ask", "change", "by")
# A result in the table, in Rattle and Rust, in C, and in Python.
RESULTS = {
    "status": ("u32", "icu_locale_status", None),
    "status?": ("u32", "icu_locale_status", None),
    "u32": ("u32", "uint32_t", "_NUMBER"),
    "bool": ("bool", "bool", "_TRUTH"),
    "usize": ("usize", "size_t", "_SIZE"),
    "i8": ("i8", "int8_t", "ctypes.c_int8"),
    "u64": ("u64", "uint64_t", "ctypes.c_uint64"),
    "nothing": ("", "void", "None"),
}
# What kind of handle, text, number or place to write to a parameter is.
HANDLES = {"reads": "locale", "changes": "locale", "from": "from", "other": "other"}
TEXTS = {"text": "text", "bytes": "other", "range": "range", "key": "key", "value": "value"}
NUMBERS = {
    "mode": ("u32", "icu_locale_mode", "_NUMBER"),
    "status": ("u32", "icu_locale_status", "_NUMBER"),
    "priority": ("u32", "icu_locale_priority", "_NUMBER"),
    "index": ("usize", "size_t", "_SIZE"),
    "singleton": ("u8", "uint8_t", "_BYTE"),
    "place": ("usize", "size_t", "_SIZE"),
    "set": ("u32", "icu_locale_kinds", "_NUMBER"),
    "number": ("u32", "icu_locale_hint_number", "_NUMBER"),
}
PLACES = {
    "order": ("i8", "int8_t", "_ORDER"),
    "same": ("u8", "uint8_t", "_SAME"),
    "start": ("usize", "size_t", "_PLACE"),
    "end": ("usize", "size_t", "_PLACE"),
    "kinds": ("u32", "icu_locale_kinds", "_NUMBER_AT"),
    "hint": ("u32", "icu_locale_hint_number", "_NUMBER_AT"),
}
PARAMETERS = {*HANDLES, *TEXTS, *NUMBERS, *PLACES, "out"}


class Row:
    """A row of the table: a call."""

    def __init__(self, line, number, module):
        fields = [it.strip() for it in line.split("|")]
        self.number, self.module, self.count = number, module, len(fields)
        self.name, given, thing, self.clause, self.says = (fields + [""] * 5)[:5]
        takes, arrow, gives = given.partition("->")
        self.takes, self.gives = takes.split(), gives.strip() if arrow else "status"
        self.kind, _, self.thing = thing.partition(" ")
        self.is_by_hand = self.count == 2
        self.symbol = f"icu_locale_{self.name}"

    def length_of(self, text):
        """Returns the name of a text's length in C: plain of the first text, unless that is a key or a value."""
        is_plain = text == "text" or (text == "bytes" and "text" not in self.takes)
        return "length" if is_plain else f"{TEXTS[text]}_length"


class Table:
    """The rows, the modules of exports, and the imports of definitions."""

    def __init__(self, text):
        self.rows, self.modules, self.imports = [], {}, []
        module = ""
        for number, line in enumerate(text.splitlines(), 1):
            head = re.fullmatch(r"\[(\w+)\] (.+)", line)
            if head:
                module = head[1]
                self.modules[module] = head[2]
            elif line.startswith("ghost use "):
                self.imports.append(line)
            elif line.strip() and line[0] != "#":
                self.rows.append(Row(line, number, module))

    def rows_of(self, module):
        return [it for it in self.rows if it.module == module and not it.is_by_hand]


def wrong_in_row(row):
    if row.count not in (2, 5):
        yield f"a row has two fields or five, and this one has {row.count}. The top of the table says which"
        return
    if not re.fullmatch("[a-z][a-z_]*", row.name):
        yield f"the call `{row.name}` is no name of a call. Write small letters and `_`, without icu_locale_"
    for it in row.takes:
        if it not in PARAMETERS:
            yield f"the parameter `{it}` is not known. Write one of: {' '.join(sorted(PARAMETERS))}"
    if row.gives not in RESULTS:
        yield f"the result `{row.gives}` is not known. Write one of: {' '.join(RESULTS)}"
    if not row.is_by_hand and (row.kind not in KINDS or not row.module):
        yield f"the kind `{row.kind}` is none of {' '.join(KINDS)}, or no line such as `[variants] Calls on variants.` is above"


def table_of(text):
    """Returns the table, and what is wrong with its rows, each with its file and line."""
    table = Table(text)
    return table, faults_of(TABLE, table.rows, wrong_in_row, (("call", "name"),))
