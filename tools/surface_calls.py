"""The table of calls of tools/benchmark --surface, as tools/surface_calls.txt has it, whose head says how it is written."""
import re
from collections import namedtuple

from common import read


# A call, and what it is given.
Call = namedtuple("Call", "name module texts others before body")
# Texts that a keyword type refuses.
UNKNOWN = {"foo", "bar"}


def fields(text, number):
    """Returns this number of fields, of which the last ones may be empty."""
    found = [it.strip() for it in re.split(r" \|(?= |$)", text)]
    return found + [""] * (number - len(found))


class Table:
    """The calls, and what is named in the table."""

    def __init__(self, text):
        self.named, self.of_many, self.calls = {}, {}, []
        text = re.sub(r"\n {4,}", " ", re.sub(r"(?m)^#.*\n?", "", text))
        for part in re.split(r"\n\n+", text.strip()):
            head, *rows = part.split("\n")
            if head.startswith("["):
                self.block(head, rows)
            else:
                self.names([head, *rows])

    def names(self, rows):
        """Reads texts, code, and the calls that many types have."""
        for row in rows:
            if row.startswith("* "):
                name, body = row[2:].split(" => ", 1)
                self.of_many[fields(name, 2)[0]] = (fields(name, 2)[1], body)
            else:
                name, meant = row.split(" = ", 1)
                self.named[name] = meant

    def block(self, head, rows):
        """Reads the calls below a head, for each name behind it."""
        given, _, names = head[1:].partition("]")
        names = re.sub(r"\b[A-Z_]+\b", self.meant, names).split()
        for name in names or [""]:
            short, _, whole = name.partition(":")
            for row in rows:
                filled = [it.replace("{:}", whole or short).replace("{}", short) if name else it for it in (given, row)]
                self.calls.append(self.call(*filled))

    def call(self, head, row):
        module, texts, setting = fields(head, 3)
        given, _, body = row.partition(" => ")
        name, more, others, own = fields(given, 4)
        where, _, name = name.rpartition("/")
        texts = self.texts(own or texts)
        if not body:
            added, body = self.many(name)
            more, others = f"{more} {added}", " ".join(texts) if added == "OTHER" else others
        before = self.before(self.named.get(setting, setting), more.strip())
        return Call(name, where or module, texts, self.texts(others) or [""] * 4, before, body)

    def many(self, name):
        """Returns what is added before a call that many types have, and its body."""
        ends = [it for it in self.of_many if re.search(rf"_{it}(_[^_]+)?$", name)]
        return self.of_many[max(ends, key=len)]

    def before(self, code, more):
        more = more.replace("OTHER", code.replace("let v", "let o").replace(", a)", ", b)"))
        if more.startswith("mut"):
            code, more = code.replace("let v", "let mut v"), more[len("mut") :]
        elif more.startswith("-"):
            code, more = "", more[1:]
        return f"{code} {re.sub('[A-Z_]+', self.meant, more).strip()}".strip()

    def meant(self, found):
        return self.named.get(found[0], found[0])

    def texts(self, names):
        """Returns four texts by their name, or as they stand in the row."""
        is_known = names.startswith("known ")
        name = names[len("known ") :] if is_known else names
        texts = self.named.get(name, name).split()
        return [texts[0] if is_known and it in UNKNOWN else it for it in texts]


CALLS = Table(read("tools/surface_calls.txt")).calls
