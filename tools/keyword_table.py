"""The table tools/keywords.txt: its rows, and what is wrong with their form, by file and line. What a row says wrongly the
compiler and the prover find in what is written from it."""
import re

from written import faults_of

TABLE = "tools/keywords.txt"
FIELDS = "key | type | what the type says | what its key names | default | texts and variants"
NAME = re.compile(r"[A-Z][A-Za-z0-9]*")


class Keyword:
    """A row of the table."""

    def __init__(self, line, number):
        fields = [it.strip() for it in line.split("|")]
        self.number, self.count = number, len(fields)
        self.key, self.name, self.says, self.key_says, self.default, texts = (fields + [""] * 6)[:6]
        self.by_hand = not texts or texts.startswith("=")
        if self.by_hand:
            self.pairs = [(it, None) for it in texts.lstrip("=").split()]
        else:
            self.pairs = [tuple(it.split()) for it in texts.split(",")]
        self.texts = [it[0] for it in self.pairs if it]
        self.variants = [it[1] for it in self.pairs if len(it) == 2 and it[1]]
        self.module = re.sub(r"(?<!^)(?=[A-Z])", "_", self.name).lower()


def wrong_in_row(row):
    if row.count != 6:
        yield f"a row has six fields, and this one has {row.count}. Write: {FIELDS}"
        return
    if not re.fullmatch("[a-z]{2}", row.key):
        yield f"the key `{row.key}` is not two lower-case letters. Write it as UTS #35 does"
    if not NAME.fullmatch(row.name):
        yield f"the type `{row.name}` is no name of a type. Begin with a capital, and go on with letters and digits"
    if not row.key_says or not (row.says or row.by_hand):
        yield "a text is missing: what the type says, or what its key names. Write it into the third or fourth field"
    for pair in () if row.by_hand else row.pairs:
        if len(pair) != 2 or not NAME.fullmatch(pair[1]) or pair[1] == "Self":
            yield f"`{' '.join(pair)}` is not a text and its variant. Write: noignore NonIgnorable, shifted Shifted"


def rows_of(text):
    """Returns the rows of the table's text, and what is wrong with them, each with its file and line."""
    lines = [(number, it) for number, it in enumerate(text.splitlines(), 1) if it.strip() and it[0] != "#"]
    rows = [Keyword(it, number) for number, it in lines]
    return rows, faults_of(TABLE, rows, wrong_in_row, (("key", "key"), ("type", "name")))
