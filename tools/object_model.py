"""A plain model of locales that a program holds: what tools/try_bindings wants of their parts, comparisons and changes.

A locale is known by the normal form that the vectors have for its text. The model takes the normal form apart, and
changes and orders the parts by docs/DEFINITIONS.md. It calls no library."""
import copy
import random
import re

from common import TOP

CALENDARS = {*"buddhist chinese coptic dangi ethioaa ethiopic gregory hebrew indian islamic iso8601 japanese persian roc".split()}
CALENDARS |= {*"islamic-umalqura islamic-tbla islamic-civil islamic-rgsa".split()}
OLD_CALENDARS = {"islamicc": "islamic-civil", "ethiopic-amete-alem": "ethioaa"}
HOUR_CYCLES = {"h11", "h12", "h23", "c12", "c24"}
REFUSED_LANGUAGE, REFUSED_SUBTAG, REFUSED_EXTENSION = (
    "! The given language subtag is invalid", "! Invalid subtag", "! Invalid extension",
)
# The sets of words of a locale: what a word is, and the refusal of what is none.
SETS = {
    "variants": ("[A-Za-z0-9]{5,8}|[0-9][A-Za-z0-9]{3}", REFUSED_SUBTAG),
    "attributes": ("[A-Za-z0-9]{3,8}", REFUSED_EXTENSION),
}
MAPS = ("keywords", "fields", "others")
# The single words of a locale: what each is, the refusal of what is none, and in which case it is written.
PARTS = {
    "language": ("[A-Za-z]{2,3}|[A-Za-z]{5,8}", REFUSED_LANGUAGE, str.lower),
    "script": ("[A-Za-z]{4}", REFUSED_SUBTAG, str.capitalize),
    "region": ("[A-Za-z]{2}|[0-9]{3}", REFUSED_SUBTAG, str.upper),
}
SLOTS = 4
WORDS = ["", "en", "EN", "gsw", "abcd", "Und", "sinhalese", "e", "latn", "LATN", "Arab", "US", "gb", "419", "41", "4190"]
WORDS += ["posix", "POSIX", "1994", "199a", "a199", "macos", "valencia", "fonipa", "abcdefghi", "rozaj", "biske", "x"]
WORDS += ["en-US", "-", "en-", "!!", "\N{LATIN SMALL LETTER E WITH ACUTE}a", "foo", "FOO", "attr", "fo", "toolongword"]
KEYS = ["ca", "CA", "nu", "kn", "hc", "co", "x", "c1", "1c", "a8", "", "!!", "cal", "sd", "rg", "va"]
VALUES = ["", "true", "TRUE", "buddhist", "Islamic-Civil", "false", "h12", "r", "ab", "roc-ab", "a-b", "phonebk", "-", "abc-"]
FIELDS = ["m0", "M0", "k0", "i0", "h0", "00", "mm", "m", "", "s0"]
PRIVATE = ["", "x", "x-a", "X-A-b", "a-b", "x-abcdefghi", "x-", "x-12345678-foo", "x-x-u-ca", "!!"]
OTHERS = ["a-foo", "A-Foo-BAR", "b-abc-12345678", "a", "a-b", "t-de", "x-foo", "u-foo", "1-ab", "a-foo-!!", "a-foo-", "a--foo"]
OTHERS += ["\N{LATIN SMALL LETTER E WITH ACUTE}-foo", "a-foo-b-bar", "", "-", "a-toolongword", "c-ab-cd-ef-gh-ij", "z-true", "ab-foo", "!-foo"]
SINGLETONS = ["a", "A", "b", "1", "c", "z", "t", "u", "x", "!"]
VALUES += ["ustx", "USca", "gbeng", "419a", "uszzzz", "gbzzzz", "h25", "c24", "islamicc", "ethiopic-amete-alem", "thai-latn"]
VALUES += ["aaa-bbb-ccc-ddd-eee", "true-foo-true", "12345678", "123456789", "latn"]


def lines(file):
    return (TOP / "vectors" / file).read_bytes().split(b"\n")[:-1]


def meanings():
    """The normal form, or the refusal, of each text of the vectors and of each normal form there."""
    normals = [it.decode() for it in lines("locale.out")]
    known = dict(zip(lines("texts.in"), normals))
    return {**{it.encode(): it for it in normals if not it.startswith("! ")}, **known}


def short(words):
    """What a short list is ordered by: those of at most one item come first."""
    return len(words) > 1, list(words)


def identifier_of(words):
    """Language, script, region and variants of the words of an identifier."""
    language, rest, script, region = words[0], list(words[1:]), "", ""
    if rest and re.fullmatch("[A-Za-z]{4}", rest[0]):
        script = rest.pop(0)
    if rest and re.fullmatch("[A-Za-z]{2}|[0-9]{3}", rest[0]):
        region = rest.pop(0)
    return language, script, region, rest


def order_of_identifier(language, script, region, variants):
    return language, script, region, short(sorted(variants))


def fields_of(words, is_key):
    """The words before the first key, and each key with its words."""
    before, fields = [], []
    for word in words:
        if is_key(word):
            fields.append((word, []))
        else:
            (fields[-1][1] if fields else before).append(word)
    return before, fields


class Model:
    """A locale: und, or what a normal form says."""

    def __init__(self, normal="und"):
        front, *private = normal.split("-x-", 1)
        blocks = re.split("-(?=[0-9a-z]-)", front)
        self.language, self.script, self.region, self.variants = identifier_of(blocks[0].split("-"))
        self.others = {it[0]: it[2:].split("-") for it in blocks[1:]}
        self.private = private[0].split("-") if private else []
        attributes, keywords = fields_of(self.others.pop("u", []), lambda it: len(it) == 2)
        self.attributes, self.keywords = set(attributes), {key: "-".join(value) for key, value in keywords}
        before, fields = fields_of(self.others.pop("t", []), lambda it: re.fullmatch("[a-z][0-9]", it))
        self.transform, self.fields, self.variants = "-".join(before), dict(fields), set(self.variants)

    def base(self):
        return "-".join(it for it in (self.language, self.script, self.region, *sorted(self.variants)) if it)

    def written(self):
        blocks = {key: "-".join([key, *words]) for key, words in self.others.items()}
        unicode = [*sorted(self.attributes), *(it for pair in sorted(self.keywords.items()) for it in pair if it)]
        fields = [it for key, value in sorted(self.fields.items()) for it in (key, *value)]
        transform = [it for it in (self.transform, *fields) if it]
        blocks.update({key: "-".join([key, *words]) for key, words in (("u", unicode), ("t", transform)) if words})
        ends = ["-".join(["x", *self.private])] if self.private else []
        return "-".join([self.base(), *(blocks[key] for key in sorted(blocks)), *ends])

    def is_well_formed(self):
        """A subtag of two bytes in a value would be parsed as a key."""
        return all(len(it) != 2 for value in self.keywords.values() for it in value.split("-"))

    def order(self):
        transform = [order_of_identifier(*identifier_of(self.transform.split("-")))] if self.transform else []
        keywords = [(key, short([it for it in value.split("-") if it])) for key, value in sorted(self.keywords.items())]
        fields, others = ([(key, short(words)) for key, words in sorted(it.items())] for it in (self.fields, self.others))
        return (
            order_of_identifier(self.language, self.script, self.region, self.variants),
            (short(sorted(self.attributes)), short(keywords)),
            (transform, fields),
            short(self.private),
            others,
        )

    def hash(self):
        """FNV-1a of the normal form."""
        found = 0xCBF29CE484222325
        for byte in self.written().encode():
            found = (found ^ byte) * 0x100000001B3 % (1 << 64)
        return found

    def parts(self):
        """All that a caller reads, in a line."""
        text = self.written()
        fields = [text, self.base(), self.language, self.script, self.region, ",".join(sorted(self.variants))]
        fields += [",".join(sorted(self.attributes)), ",".join(f"{key}={value}" for key, value in sorted(self.keywords.items()))]
        language, script, region, variants = identifier_of(self.transform.split("-"))
        transformed = (language, script.capitalize(), region.upper(), *sorted(variants))
        fields += ["-".join(filter(None, transformed)), ",".join(f"{key}={'-'.join(value)}" for key, value in sorted(self.fields.items()))]
        fields.append("-".join(["x", *self.private]) if self.private else "")
        fields.append(",".join("-".join([key, *self.others[key]]) for key in sorted(self.others)))
        fields += [self.data_text(False), self.data_text(True), *self.preferences()]
        return "\t".join([*fields, f"{int(text == 'und')}{int(self.is_well_formed())}", f"{self.hash():016x}"])

    def subdivision(self, key):
        """Region and suffix of the keyword, if its value is a subdivision."""
        found = re.fullmatch("([a-z]{2}|[0-9]{3})([a-z0-9]{1,4})", self.keywords.get(key, ""))
        return (found[1].upper(), found[2]) if found else None

    def data(self, by_region):
        """Language, script, region with suffix, and variant of the data locale."""
        own, other = self.subdivision("sd"), self.subdivision("rg")
        part = own if own and self.region in ("", own[0]) else (self.region, "zzzz") if self.region else ("", "")
        part = other if by_region and other else part
        return self.language, self.script, part, min(self.variants, default="")

    def data_text(self, by_region):
        language, script, (region, suffix), variant = self.data(by_region)
        parts = [language, script, region, variant, "u-sd-" + region.lower() + suffix if suffix not in ("", "zzzz") else ""]
        return "-".join(it for it in parts if it)

    def preferences(self):
        """The calendar, the hour cycle and the numbering system that formatters read; `-` for none."""
        calendar, cycle, numbers = (self.keywords.get(it, "") for it in ("ca", "hc", "nu"))
        calendar = OLD_CALENDARS.get(calendar, calendar)
        return [calendar if calendar in CALENDARS else "-", cycle if cycle in HOUR_CYCLES else "-", numbers if numbers and "-" not in numbers else "-"]


def compared(first, second):
    return (first > second) - (first < second)


def pair_wanted(first, second, other):
    """What is wanted of locales of two normal forms: their order, whether they are equal and hashed alike, the byte order
    of the first against the other's text, and whether that text means the first."""
    if first.startswith("! "):
        return first
    model = Model(first)
    against = f"{compared(first.encode(), other)} {int(first == second)}"
    if second.startswith("! "):
        return f"- - - {against}"
    order = compared(model.order(), Model(second).order())
    return f"{order} {int(first == second)} {int(model.hash() == Model(second).hash())} {against}"


def neighbours(mode):
    """Each text and its normal form in the mode, with itself, with the next text and with the normal form: the other text,
    and its normal form."""
    every = [*zip(lines("texts.in"), lines(f"{mode}.out"))]
    for (text, normal), after in zip(every, [*every[1:], every[0]]):
        own = [] if normal.startswith(b"! ") else [(normal, normal)]
        yield from ((text, normal, *other) for other in [(text, normal), after, *own])


def pairs_wanted():
    every = [*neighbours("locale")]
    wanted = [pair_wanted(normal.decode(), means.decode(), other) for _, normal, other, means in every]
    return [(text, other) for text, _, other, _ in every], wanted


class Script:
    """Random steps on locales, each with what is wanted of it. Where values must be readable, one whose text would be
    parsed as something else is refused."""

    def __init__(self, seed, known, keeps_well_formed=False, normals=None):
        """Of texts that are known as locales; `normals` has what some mean as identifiers (else those of the vectors)."""
        self.random, self.known, self.keeps = random.Random(seed), known, keeps_well_formed
        self.texts = [it for it in known if b"\t" not in it and b"\r" not in it]
        normals = normals or dict(zip(lines("texts.in"), (it.decode() for it in lines("langid.out"))))
        self.identifiers = {it: normals[it] for it in self.texts if it in normals}
        self.some = [*sorted(self.identifiers)[::7], *[b""] * 40]
        self.slots = [Model() for _ in range(SLOTS)]
        self.steps, self.wanted = [], []

    def step(self, call, at, *given):
        """Takes one step, and notes it with the answer and with the text of the locale after it."""
        words = [it if isinstance(it, bytes) else str(it).encode() for it in given]
        self.steps.append(b"\t".join([call.encode(), b"%d" % at, *words]))
        does, _, part = call.partition("-")
        part = f"{part.rstrip('s')}s"
        if call in PARTS:
            answer = self.set_word(self.slots[at], call, *given)
        elif part in SETS:
            answer = self.in_set(self.slots[at], does, part, *given)
        elif part in MAPS and does != "set":
            answer = self.in_map(getattr(self.slots[at], part), does, part, *given)
        else:
            answer = getattr(self, call.replace("-", "_"))(self.slots[at], at, *given)
        self.wanted.append(f"{answer}\t{self.slots[at].written()}")

    def parse(self, _, at, text):
        normal = self.known[text]
        if normal.startswith("! "):
            return normal
        self.slots[at] = Model(normal)
        return "ok"

    @staticmethod
    def set_word(it, part, word):
        """What is answered where the language, the script or the region is set."""
        form, refused, in_case = PARTS[part]
        if word and not re.fullmatch(form, word):
            return refused
        setattr(it, part, in_case(word) or ("und" if part == "language" else ""))
        return "ok"

    @staticmethod
    def in_set(it, does, part, word=""):
        """What is answered where a word of a set is added, taken out or looked for, or all are taken out."""
        form, refused = SETS[part]
        words, is_there = getattr(it, part), word.lower() in getattr(it, part)
        if does == "has":
            return int(is_there)
        if does == "add":
            if not re.fullmatch(form, word):
                return refused
            words.add(word.lower())
        else:
            words.difference_update([word.lower()] if does == "remove" else [*words])
        return "none" if does == "remove" and not is_there else "ok"

    def set_keyword(self, it, _, key, value):
        if not re.fullmatch("[A-Za-z0-9][A-Za-z]", key):
            return REFUSED_EXTENSION
        words = value.lower().split("-") if value else []
        if not all(re.fullmatch("[a-z0-9]{2,8}", it) for it in words):
            return REFUSED_SUBTAG
        words = [it for it in words if it != "true"]
        if self.keeps and any(len(it) == 2 for it in words):
            return REFUSED_SUBTAG
        it.keywords[key.lower()] = "-".join(words)
        return "ok"

    @staticmethod
    def in_map(held, does, part, key=""):
        """What is answered where a key of a map is looked up or taken out, or all are taken out."""
        key = key.lower()
        if does == "clear":
            held.clear()
            return "ok"
        if key not in held:
            return "none"
        value = held.pop(key) if does == "remove" else held[key]
        words = [value] if part == "keywords" else [*[key] * (part == "others"), *value]
        return "ok" if does == "remove" else f"={'-'.join(words)}"

    def transform_language(self, it, _, text):
        normal = self.identifiers[text] if text else ""
        if normal.startswith("! "):
            return normal
        it.transform = normal.lower()
        return "ok"

    def set_field(self, it, _, key, value):
        words = value.lower().split("-")
        if not re.fullmatch("[A-Za-z][0-9]", key) or not all(re.fullmatch("[a-z0-9]{3,8}", it) for it in words):
            return REFUSED_EXTENSION
        it.fields[key.lower()] = [it for it in words if it != "true"] or ["true"]
        return "ok"

    def set_other(self, it, _, text):
        """A piece of 2 to 8 bytes that is no subtag is left out; one must stay."""
        singleton, *pieces = text.lower().encode().split(b"-")
        kept = [piece.decode() for piece in pieces if re.fullmatch(b"[a-z0-9]{2,8}", piece)]
        if not re.fullmatch(b"[a-svwyz0-9]", singleton) or not kept or any(not 2 <= len(it) <= 8 for it in pieces):
            return REFUSED_EXTENSION
        it.others[singleton.decode()] = kept
        return "ok"

    def extend(self, it, _, other):
        more = self.slots[other]
        it.attributes.update(more.attributes)
        it.keywords.update(more.keywords)
        return "ok"

    def compare_data(self, it, _, other):
        more, orders = self.slots[other], []
        for by_region in (False, True):
            orders.append(compared(it.data(by_region), more.data(by_region)))
            orders.append(compared(it.data_text(by_region), more.data_text(by_region)))
        return " ".join(map(str, orders))

    def private(self, it, _, text):
        words = text.lower().split("-")
        if text and (words[0] != "x" or not words[1:] or not all(re.fullmatch("[a-z0-9]{1,8}", it) for it in words)):
            return REFUSED_EXTENSION
        it.private = words[1:]
        return "ok"

    def copy(self, _, at, other):
        self.slots[at] = copy.deepcopy(self.slots[other])
        return "ok"

    def move(self, _, at, other):
        self.copy(_, at, other)
        if other != at:
            self.slots[other] = Model()
        return "ok"

    def compare(self, it, _, other):
        first, second = it.order(), self.slots[other].order()
        is_alike = it.hash() == self.slots[other].hash()
        return f"{compared(first, second)} {int(first == second)} {int(is_alike)}"

    def against(self, it, _, text):
        means = self.known[text]
        is_meant = not means.startswith("! ") and Model(means).order() == it.order()
        return f"{compared(it.written().encode(), text)} {int(is_meant)}"

    def parts(self, it, _):
        return it.parts()

    def any_step(self):
        """One step: often a change of one part, and at times a whole locale."""
        pick, at = self.random.choice, self.random.randrange(SLOTS)
        other = self.random.randrange(SLOTS)
        words = ["language", "script", "region", "add-variant", "add-variant", "remove-variant", "has-variant"]
        words += ["add-attribute", "add-attribute", "remove-attribute", "has-attribute"]
        ways = [lambda: (pick(words), at, pick(WORDS))] * 10
        ways += [lambda: ("set-keyword", at, pick(KEYS), pick(VALUES))] * 5
        ways += [lambda: (pick(["get-keyword", "remove-keyword"]), at, pick(KEYS))] * 2
        ways += [lambda: (pick(["copy", "move", "compare", "compare"]), at, other)] * 2
        ways += [lambda: (pick(["parse", "against"]), at, pick(self.texts)), lambda: ("parts", at), lambda: ("parts", at)]
        if self.random.randrange(8) == 0:
            ways = [lambda: ("transform-language", at, pick(self.some))]
            ways += [lambda: ("private", at, pick(PRIVATE)), lambda: ("get-field", at, pick(FIELDS)), lambda: ("clear-fields", at)]
            ways += [lambda: ("set-field", at, pick(FIELDS), pick(VALUES))] * 3 + [lambda: ("remove-field", at, pick(FIELDS))]
        if self.random.randrange(8) == 0:
            ways = [lambda: ("set-other", at, pick(OTHERS))] * 3 + [lambda: ("extend", at, other), lambda: ("compare-data", at, other)]
            ways += [lambda: (pick(["get-other", "get-other", "remove-other"]), at, pick(SINGLETONS))]
        if self.random.randrange(20) == 0:
            ways = [lambda: (pick(["clear-variants", "clear-attributes", "clear-keywords"]), at)]
        if self.random.randrange(40) == 0:
            text = self.slots[other].written().encode()
            ways = [lambda: ("against", at, text)] if text in self.known else ways
        self.step(*pick(ways)())


def script_wanted(seed, steps, known, keeps_well_formed=False, normals=None):
    made = Script(seed, known, keeps_well_formed, normals)
    for _ in range(steps):
        made.any_step()
    return made.steps, made.wanted
