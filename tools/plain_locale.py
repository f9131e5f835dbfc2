"""What a text means as a locale, by docs/DEFINITIONS.md: for calls on random texts (conformance/at_random), whose answers come
from nothing that the library has.

It is written from that page alone, as one function for each rule there. The texts of vectors/ are no part of it, and are
answered alike (tools/try_bindings sees to that)."""
import itertools
import re

LANGUAGE, SCRIPT, REGION = b"[A-Za-z]{2,3}|[A-Za-z]{5,8}", b"[A-Za-z]{4}", b"[A-Za-z]{2}|[0-9]{3}"
VARIANT, SUBTAG = b"[A-Za-z0-9]{5,8}|[0-9][A-Za-z0-9]{3}", b"[A-Za-z0-9]{2,8}"
KEY, FIELD, WORD, PRIVATE = b"[A-Za-z0-9][A-Za-z]", b"[A-Za-z][0-9]", b"[A-Za-z0-9]{3,8}", b"[A-Za-z0-9]{1,8}"


class Refused(Exception):
    """A fault, by its words."""


BAD_LANGUAGE, BAD_SUBTAG, BAD_EXTENSION, TWICE = (
    "The given language subtag is invalid", "Invalid subtag", "Invalid extension", "Duplicated extension",
)


def is_word(kind, piece):
    return re.fullmatch(kind, piece) is not None


def identifier(pieces, fault):
    """Language, script, region and ascending variants of all these pieces; of a variant that stands twice InvalidSubtag,
    and of any other breach this fault."""
    language, rest, script, region = pieces[0].lower(), list(pieces[1:]), b"", b""
    if not is_word(LANGUAGE, language):
        raise Refused(BAD_LANGUAGE)
    if rest and is_word(SCRIPT, rest[0]):
        script = rest.pop(0).capitalize()
    if rest and is_word(REGION, rest[0]):
        region = rest.pop(0).upper()
    variants = [it.lower() for it in rest]
    taken = next((at for at, it in enumerate(variants) if not is_word(VARIANT, it)), len(variants))
    if len({*variants[:taken]}) < taken:
        raise Refused(BAD_SUBTAG)
    if taken < len(variants):
        raise Refused(fault)
    return [it for it in (language, script, region, *sorted(variants)) if it]


def fields(pieces, key, needs_value):
    """The map of the pieces, which begin with a key: of equal keys the first stays, and `true` is no value."""
    found, at = {}, 0
    while at < len(pieces):
        values = [it.lower() for it in itertools.takewhile(lambda it: is_word(WORD, it), pieces[at + 1 :])]
        if not is_word(key, pieces[at]) or needs_value and not values:
            raise Refused(BAD_EXTENSION)
        found.setdefault(pieces[at].lower(), [it for it in values if it != b"true"])
        at += 1 + len(values)
    return found


def unicode(pieces):
    split = next((at for at, it in enumerate(pieces) if not is_word(WORD, it)), len(pieces))
    attributes, keywords = {it.lower() for it in pieces[:split]}, fields(pieces[split:], KEY, False)
    return [*sorted(attributes), *(it for key in sorted(keywords) for it in (key, *keywords[key]))]


def transform(pieces):
    split = next((at for at, it in enumerate(pieces) if is_word(FIELD, it)), len(pieces))
    front = [it.lower() for it in identifier(pieces[:split], BAD_EXTENSION)] if split and is_word(LANGUAGE, pieces[0]) else []
    if split and not front:
        raise Refused(BAD_EXTENSION)
    pairs = fields(pieces[split:], FIELD, True)
    return [*front, *(it for key in sorted(pairs) for it in (key, *(pairs[key] or [b"true"])))]


def private(pieces):
    if not all(is_word(PRIVATE, it) for it in pieces):
        raise Refused(BAD_EXTENSION)
    return [it.lower() for it in pieces]


def other(pieces):
    kept = [it.lower() for it in pieces if is_word(SUBTAG, it)]
    if not kept or not all(2 <= len(it) <= 8 for it in pieces):
        raise Refused(BAD_EXTENSION)
    return kept


def blocks(pieces):
    """The blocks of the pieces, each as its singleton and what it holds."""
    at = 0
    while at < len(pieces):
        is_private = pieces[at].lower() == b"x"
        end = len(pieces) if is_private else next((n for n in range(at + 1, len(pieces)) if len(pieces[n]) == 1), len(pieces))
        yield pieces[at].lower(), pieces[at + 1 : end]
        at = end


def locale(text):
    """The normal text, in bytes, or Refused."""
    pieces = text.split(b"-")
    head = next((at for at, it in enumerate(pieces) if len(it) == 1), len(pieces))
    if not is_word(LANGUAGE, pieces[0]):
        raise Refused(BAD_LANGUAGE)
    base, found = identifier(pieces[:head], BAD_SUBTAG), {}
    for singleton, held in blocks(pieces[head:]):
        if singleton in found:
            raise Refused(TWICE)
        if not is_word(b"[a-z0-9]", singleton) or not held:
            raise Refused(BAD_EXTENSION)
        found[singleton] = {b"u": unicode, b"t": transform, b"x": private}.get(singleton, other)(held)
    last = [b"x", *found.pop(b"x")] if b"x" in found else []
    words = [*base, *(it for key in sorted(found) for it in (key, *found[key])), *last]
    return b"-".join(words)


def answered(text, is_identifier=False):
    """The normal text of a locale or of an identifier, or `! ` and the words of the fault."""
    try:
        return (b"-".join(identifier(text.split(b"-"), BAD_SUBTAG)) if is_identifier else locale(text)).decode()
    except Refused as fault:
        return f"! {fault}"


def means_data(text):
    """Whether the text means a data locale: an identifier with one variant at most, and perhaps one subdivision."""
    pieces = text.split(b"-")
    head = next((at for at, it in enumerate(pieces) if at and len(it) == 1), len(pieces))
    try:
        identifier(pieces[:head], BAD_SUBTAG)
    except Refused:
        return False
    if sum(is_word(VARIANT, it) for it in pieces[1:head]) > 1:
        return False
    block = [it.lower() for it in pieces[head:]]
    values = [it for it in block[2:] if it != b"true"]
    is_one = len(values) == 1 and is_word(b"([a-z]{2}|[0-9]{3})[a-z0-9]{1,4}", values[0])
    return not block or block[:2] == [b"u", b"sd"] and is_one


def is_accepted(text, mode):
    """Whether the text means something in the mode, by its word."""
    return means_data(text) if mode == "data" else not answered(text, mode == "langid").startswith("! ")


# What is tried behind the first pieces of a text, to see whether a text that means something begins with them: a piece for
# each thing that may be wanted there (an attribute, a value, a private word or a language; a field; a subdivision).
TAILS = (b"", b"-foo", b"-m0-foo", b"-sd-usca", b"-usca")


def place(text, mode):
    """Where the fault of a refused text stands: the start and the end of the first piece with which no text begins that
    means something; the end of the text if all its pieces can go on. It is searched by trying what may follow."""
    ends = [at for at, it in enumerate(text) if it == ord("-")] + [len(text)]
    first, last = 0, len(ends)  # the first that does not go on is one of these: what goes on, goes on if it is cut
    while first < last:
        middle = (first + last) // 2
        if any(is_accepted(text[: ends[middle]] + tail, mode) for tail in TAILS):
            first = middle + 1
        else:
            last = middle
    if first == len(ends):
        return len(text), len(text)
    return (ends[first - 1] + 1 if first else 0), ends[first]


# The kinds of pieces, in the order of the bits by which callers know them.
KINDS = (
    "language", "script", "region", "variant", "singleton", "attribute", "key", "value", "field", "other", "private",
    "field value", "end",
)


def word_of_identifier(piece):
    return "script" if is_word(SCRIPT, piece) else "region" if is_word(REGION, piece) else "variant"


def kind_in_block(singleton, held, piece):
    """What a piece is in the last block that begins before it, behind what that holds."""
    if singleton == b"x":
        return "private"
    if len(piece) == 1:
        return "singleton"
    if singleton == b"u":
        return "key" if is_word(KEY, piece) else "value" if any(is_word(KEY, it) for it in held) else "attribute"
    if singleton != b"t":
        return "other"
    if is_word(FIELD, piece):
        return "field"
    if any(is_word(FIELD, it) for it in held):
        return "field value"
    return word_of_identifier(piece) if held else "language"


def kind_of(before, piece):
    """What a piece of a text that means something is, by the pieces before it."""
    head = next((at for at, it in enumerate(before) if at and len(it) == 1), len(before))
    if not before:
        return "language"
    if head < len(before):
        return kind_in_block(*[*blocks(before[head:])][-1], piece)
    return "singleton" if len(piece) == 1 else word_of_identifier(piece)


def examples(text):
    """Pieces of each kind. A variant and a singleton are such that the text has not."""
    pieces = {*text.lower().split(b"-")}
    variant = next(it for it in (bytes([at]) * 5 for at in b"qzjwvkyhgfbdlmncprsoeai") if it not in pieces)
    single = [it for it in (bytes([at]) for at in b"abcdefghijklmnopqrsvwyz0123456789") if it not in pieces][:1]
    return [b"qq", b"qqq", b"qqqq", variant, b"q9", b"sd", b"usca", b"true", b"u", b"t", b"x", *single]


def expected(text, start, mode):
    """The kinds that may stand at the start of the fault, as the sum of their bits: what goes on behind the pieces before it,
    if one of the tails ends it."""
    front = text[:start]
    if front.endswith(b"-"):
        front = front[:-1]
    before = front.split(b"-") if front else []
    found = {"end"} if before and is_accepted(front, mode) else set()
    for piece in examples(text):
        kind, goes_on = kind_of(before, piece), b"-".join([*before, piece])
        if kind not in found and any(is_accepted(goes_on + tail, mode) for tail in TAILS):
            found.add(kind)
    return sum(1 << KINDS.index(it) for it in found)


def hint(text, mode):
    """The number of the hint that a refused text has, or 0."""
    base = re.split(rb"[.@]", text, maxsplit=1)[0]
    if text.startswith(b"\xef\xbb\xbf"):
        return 1
    if re.search(rb"[ \t\r\n]", text):
        return 2
    if base in (b"C", b"POSIX", b"root"):
        return 3
    is_meant = len(base) <= 64 and is_accepted(base.replace(b"_", b"-"), mode)
    number = 4 if base != text else 5 if b"_" in text else 0
    return number if is_meant else 0


def placed(text, mode):
    """Of a refused text the place of the fault, what may stand there, and its hint, as callers print them; and `-` of a text
    that means something."""
    if is_accepted(text, mode):
        return "-"
    start, end = place(text, mode)
    return f"{start} {end} {expected(text, start, mode)} {hint(text, mode)}"
