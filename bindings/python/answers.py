"""Answers each line of standard input, for tools/try_bindings.

The word 'langid', 'locale' or 'data' asks for the normal form of each line, or '! ' and the words of the refusal. Such a
word after 'lines-' asks the same of one call for all lines. Such a word after 'pairs-' asks of each two lines for the byte order of the first, normalized, against the second, whether they
mean the same, and the order of both normal forms, as '-1 0 -1'. A refusal stands in the place of the last, or of all
three if the first is refused.

Such a word after 'faults-' asks where the fault of each line stands, which kinds may stand there and for the hint, as
'3 5 4126 0', or '-' if it has none.

The word 'objects' asks for all parts of the locale that the line means. 'two-objects' asks of each two lines for the
order of both locales, whether they are equal and are hashed alike, the byte order of the first against the second line,
and whether that line means it. 'script' asks for what each step on one of four locales gives, and the text of the locale
after it. Fields stand between tabs. tools/object_model.py says what is wanted."""

import sys

from icu_locale_c import Locale, LocaleError, Mode, Priority, check, compare, normalize, normalize_many, normalizing_eq
from icu_locale_c import strict_cmp
from icu_locale_c import base_name_of, keyword_of, language_of, matches, parent, region_of, script_of, variants_of

MODES = {"langid": Mode.IDENTIFIER, "locale": Mode.LOCALE, "data": Mode.DATA_LOCALE}


def answered(call, *words):
    try:
        return call(*words)
    except LocaleError as refusal:
        return f"! {refusal.words}"


def checked(line, mode):
    """The normal text, after a check of the line, which refuses it in the same way."""
    refusal = answered(check, line, mode)
    normal = answered(normalize, line, mode)
    assert refusal is True or refusal == normal
    return normal


def text_of(line):
    """The line as a str, if it is UTF-8."""
    try:
        return line.decode()
    except UnicodeDecodeError:
        return line


def raised_at(lines, mode):
    """The index of the first line that one call for all refuses, and what its error says; or None."""
    try:
        normalize_many(lines, mode)
    except LocaleError as refusal:
        return refusal.index, refusal.args
    return None


def answered_at_once(lines, mode):
    """The answers to all lines by one call. Those that are refused raise as in a call each."""
    normals = normalize_many(lines, mode, "coerce")
    assert normals == normalize_many(map(text_of, lines), mode, errors="coerce")
    each = [answered(normalize, line, mode) for line in lines]
    accepted = [line for line, normal in zip(lines, normals) if normal is not None]
    assert normalize_many(accepted, mode) == [it for it in normals if it is not None]
    refused = [(at, raised_at([line], mode)[1]) for at, line in enumerate(lines) if normals[at] is None]
    assert raised_at(lines, mode) == (refused[0] if refused else None)
    return [it if normal is None else normal for it, normal in zip(each, normals)]


def placed(line, mode):
    """Where the fault stands, in bytes. A str has it at the same piece, by its characters."""
    at = place(line, mode)
    try:
        assert at == place(line.decode(), mode)
    except UnicodeDecodeError:
        pass
    return at


def place(line, mode):
    """Where the fault of bytes or of a str stands, in bytes."""
    try:
        normalize(line, mode)
    except LocaleError as refusal:
        before, piece = line[: refusal.start], line[refusal.start : refusal.end]
        assert (refusal.text, refusal.piece, refusal.end) == (line[:1000], piece[:1000], refusal.start + len(piece))
        at = "" if piece == line else f" at {refusal.start}..{refusal.end}"
        meant = "" if refusal.hint is None else f"; {refusal.hint}"
        assert str(refusal).endswith(f"{at}: {refusal.expected} may stand here{meant}")
        piece, before = (it if isinstance(it, bytes) else it.encode("utf-8", "surrogatepass") for it in (piece, before))
        hint = 0 if refusal.hint is None else refusal.hint.value
        return f"{len(before)} {len(before) + len(piece)} {refusal.expected.value} {hint}"
    return "-"


def compared(first, second, mode):
    both = f"{strict_cmp(first, second, mode)} {int(normalizing_eq(first, second, mode))}"
    return f"{both} {answered(compare, first, second, mode)}"


def parts(locale):
    keywords = ",".join(f"{key}={value}" for key, value in locale.keywords.items())
    pairs = ",".join(f"{key}={value}" for key, value in locale.fields.items())
    fields = [str(locale), locale.base_name, locale.language, locale.script or "", locale.region or ""]
    fields += [",".join(locale.variants), ",".join(locale.attributes), keywords]
    fields += [locale.transform_language or "", pairs, locale.private or ""]
    fields += [",".join(f"{it}-{text}" for it, text in locale.others.items())]
    fields += [locale.data_locale(), locale.data_locale(Priority.REGION)]
    fields += [it or "-" for it in (locale.calendar_algorithm, locale.hour_cycle, locale.numbering_system)]
    # Each Locale is well-formed. A hash may be cut by the interpreter.
    assert Locale(str(locale)) == locale
    see_texts(locale, str(locale).upper())
    return "\t".join([*fields, f"{int(locale.is_und)}1", f"{locale.__hash__():016x}"])


def see_texts(locale, text):
    """The functions on texts give the parts that the locale has, which the text means."""
    names = (base_name_of(text), language_of(text), script_of(text), region_of(text), variants_of(text))
    assert names == (locale.base_name, locale.language, locale.script, locale.region, locale.variants)
    assert all(keyword_of(text, it) == locale.keywords.get(it) for it in [*locale.keywords, "zz"])
    above = parent(text)
    assert above is None if locale.is_und else matches(text, above) and above != str(locale)


def compared_objects(one, other):
    """The comparison of two locales, of which all operators are to agree."""
    order = (one > other) - (one < other)
    assert (one <= other, one >= other) == (order <= 0, order >= 0) and (other > one) - (other < one) == -order
    assert (one == other) != (one != other)
    return f"{order} {int(one == other)} {int(hash(one) == hash(other))}"


def compared_data(one, other):
    """The order of the data locales of both, by each priority, and of that of the first against the text of the other's."""
    orders = []
    for by in Priority:
        order = one.data_compare(other, by)
        assert other.data_compare(one, by) == -order
        orders.append(f"{order} {one.data_strict_cmp(other.data_locale(by), by)}")
    return " ".join(orders)


def against(locale, text):
    return f"{locale.strict_cmp(text)} {int(locale.normalizing_eq(text))}"


def two_objects(first, second):
    one = Locale(first)
    try:
        both = compared_objects(one, Locale(second))
    except LocaleError:
        both = "- - -"
    return f"{both} {against(one, second)}"


# The attribute of a locale that has the keys which a step is about.
MAPS = {"keyword": "keywords", "field": "fields", "other": "others"}


def in_map(slots, at, does, part, word, *texts):
    """What a step gives that sets, reads or removes a key of a map, or removes all."""
    held = getattr(slots[at], part)
    if does in ("get", "remove") and word not in held:
        return "none"
    if does == "get":
        return f"={word}-{held[word]}" if part == "others" else f"={held[word]}"
    if does == "set":
        key, value = texts[0].partition(b"-")[::2] if part == "others" else texts
        left = {**held, key: value}
    else:
        left = {key: value for key, value in held.items() if does == "remove" and key != word}
    slots[at] = slots[at].replace(**{part: left})
    return "ok"


def take_step(slots, call, at, *given):
    """What a step gives. As a Locale does not change, another takes its place."""
    locale, texts = slots[at], list(given)
    word = texts[0].decode(errors="replace").lower() if texts else ""
    does, _, name = call.rstrip("s").partition("-")
    if call in ("language", "script", "region"):
        slots[at] = locale.replace(**{call: texts[0]})
    elif call == "parse":
        slots[at] = Locale(texts[0])
    elif name in ("variant", "attribute"):
        words = getattr(locale, f"{name}s")
        if does == "has":
            return int(word in words)
        left = {"add": [*words, *texts], "remove": [it for it in words if it != word], "clear": []}[does]
        slots[at] = locale.replace(**{f"{name}s": left})
        return "none" if does == "remove" and len(left) == len(words) else "ok"
    elif call in ("transform-language", "private"):
        slots[at] = locale.replace(**{call.replace("-", "_"): texts[0]})
    elif name in MAPS:
        return in_map(slots, at, does, MAPS[name], word, *texts)
    elif call == "extend":
        slots[at] = locale.extend_unicode(slots[int(word)])
    elif call == "compare-data":
        return compared_data(locale, slots[int(word)])
    elif call in ("copy", "move"):
        slots[at] = slots[int(word)]
        if call == "move" and int(word) != at:
            slots[int(word)] = Locale("und")
    elif call == "compare":
        return compared_objects(locale, slots[int(word)])
    else:
        return against(locale, texts[0]) if call == "against" else parts(locale)
    return "ok"


def script(lines):
    """The answers to a script, one after the other."""
    slots = [Locale("und") for _ in range(4)]
    for line in lines:
        call, at, *given = line.split(b"\t")
        answer = answered(take_step, slots, call.decode(), int(at), *given)
        yield f"{answer}\t{slots[int(at)]}"


def main(word):
    lines = sys.stdin.buffer.read().split(b"\n")[:-1]
    if word == "objects":
        answers = [answered(lambda line: parts(Locale(line)), line) for line in lines]
    elif word == "two-objects":
        answers = [answered(two_objects, *pair) for pair in zip(lines[::2], lines[1::2])]
    elif word == "script":
        answers = script(lines)
    elif word.startswith("faults-"):
        answers = [placed(line, MODES[word[7:]]) for line in lines]
    elif word.startswith("lines-"):
        answers = answered_at_once(lines, MODES[word[6:]])
    elif word.startswith("pairs-"):
        mode = MODES[word[6:]]
        answers = [answered(compared, *pair, mode) for pair in zip(lines[::2], lines[1::2])]
    else:
        answers = [answered(checked, line, MODES[word]) for line in lines]
    sys.stdout.write("".join(f"{it}\n" for it in answers))


main(sys.argv[1])
