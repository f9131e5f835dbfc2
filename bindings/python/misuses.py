"""Runs the doctests of icu_locale_c, and what callers may do wrong with it, for tools/try_bindings.

It prints how many cases were as wanted; the status is 0 if all were."""

import array
import collections.abc
import copy
import ctypes
import doctest
import functools
import gc
import importlib.util
import inspect
import operator
import os
import pickle
import signal
import subprocess
import sys
import threading
from typing import Dict

import icu_locale_c
from icu_locale_c import (
    DuplicatedExtension,
    Hint,
    InvalidExtension,
    InvalidLanguage,
    InvalidSubtag,
    Kinds,
    Locale,
    LocaleError,
    Mode,
    check,
    compare,
    is_valid,
    matches,
    normalize,
    normalize_many,
    normalizing_eq,
    strict_cmp,
)


class FalseText(str):
    """A str that overstates its length, and encodes itself as something else."""

    def __len__(self):
        return 1 << 40

    def encode(self, *_):
        return b"de"


class FalseBytes(bytes):
    """Bytes that overstate their length, and give other bytes."""

    def __len__(self):
        return 1 << 40

    def __bytes__(self):
        return FalseBytes(b"de")


class Lengthy:
    def __len__(self):
        return 1 << 40


class Number:
    """What stands for a number the first time, or raises."""

    def __init__(self, number):
        self.numbers = [number]

    def __index__(self):
        number = self.numbers.pop()
        return number if number is not None else 1 // 0


class Named(Locale):
    """A Locale with a name."""

    def __new__(cls, text, name):
        made = super().__new__(cls, text)
        made.__dict__["name"] = name
        return made


def raised(call, *words):
    """The type of what the call raises, or what it returns."""
    try:
        return call(*words)
    except Exception as error:
        return type(error)


def said_by(call, *words):
    """What the refusal of a call says, after it was pickled; or what the call returns."""
    try:
        return call(*words)
    except LocaleError as refusal:
        return str(pickle.loads(pickle.dumps(refusal)))


def place(call, *words):
    """Where the refusal of a call says that the fault stands, after it was pickled."""
    try:
        return call(*words)
    except LocaleError as refusal:
        read, again = pickle.loads(pickle.dumps(refusal)), type(refusal)(*refusal.args)
        assert (read.text, read.args, str(again)) == (refusal.text, refusal.args, str(refusal))
        return (read.start, read.end, read.piece) if read.piece == again.piece else (again.start, again.end, again.piece)


def advice_of(call, *words):
    """What the refusal of a call says may stand there, and what it takes for meant, after it was pickled."""
    try:
        return call(*words)
    except LocaleError as refusal:
        read = pickle.loads(pickle.dumps(refusal))
        return read.expected, read.hint


def kinds(*names):
    """The set of these kinds."""
    return Kinds(sum(Kinds[it].value for it in names))


def advice(text, mode=Mode.LOCALE):
    return advice_of(normalize, text, mode)


def in_threads(call, every):
    """Makes the call with each of these arguments, in a thread for each."""
    threads = [threading.Thread(target=call, args=it) for it in every]
    for it in threads:
        it.start()
    for it in threads:
        it.join()


def at_once():
    """What threads find that normalize texts of their own at the same time, of which each would be wrong if two shared room."""
    wrong = []

    def look(number):
        text = f"EN-x-{number}" + "-abcdefgh" * number
        wrong.extend(it for it in (normalize(text) for _ in range(3000)) if it != text.replace("EN", "en"))

    in_threads(look, [(it,) for it in range(8)])
    return wrong


class Raising:
    """An iterable of texts that raises after them."""

    def __init__(self, *texts):
        self.texts = texts

    def __iter__(self):
        yield from self.texts
        raise OSError


# Texts that cannot be lines, or look like answers; of any type.
HOSTILE = ["", "en\n", "\n", "\n\n", "en\nfr", "en-a-\n\n-foo", "en-a-foo-\n", "en\r", "\r\n", "en\u2028fr", "en\x85", "en\x0cfr"]
HOSTILE += ["! Invalid subtag", "!", "en-a-!!-foo", "en-\0-US", "en-\u00e9", "\ud800", "en-\udcff", b"\xff\xfe", b"en\nfr", b"en-\xed\xa0\x80"]
HOSTILE += [bytearray(b"EN"), memoryview(b"EN-us"), array.array("b", b"DE"), FalseText("EN-us"), FalseBytes(b"FR"), "EN-us"]
HOSTILE += ["en-x" + "-a" * 100_000, "en" + "".join(f"-v{it}" for it in range(10_000, 15_000)), "x" * 200_000, "en-" + "\n" * 9_000]


def alone(text, mode):
    """The normal form of a text, or what its error says."""
    try:
        return normalize(text, mode)
    except LocaleError as refusal:
        return refusal.args


def among_others(mode):
    """Of hostile texts, whether each is answered among others as alone, and raises with its index."""
    texts = [*HOSTILE, *["DE-at"] * 9000, *reversed(HOSTILE)]
    each = [alone(it, mode) for it in texts]
    is_same = normalize_many(texts, mode, "coerce") == [it if isinstance(it, str) else None for it in each]
    for start in range(len(HOSTILE)):
        first = next((at for at, it in enumerate(each[start:]) if isinstance(it, tuple)), None)
        try:
            normalize_many(texts[start:], mode)
        except LocaleError as refusal:
            read = pickle.loads(pickle.dumps(refusal))
            is_same = is_same and (refusal.index, refusal.args) == (first, each[start + first])
            is_same = is_same and read.index == first and str(read) == str(refusal) and f", text {first}: " in str(read)
    return is_same


def loading(path):
    """What importing the package says, with this library named."""
    ran = subprocess.run(
        [sys.executable, "-B", "-c", "import icu_locale_c"],
        env={**os.environ, "ICU_LOCALE_LIBRARY": path, "PYTHONPATH": os.path.dirname(os.path.abspath(__file__))},
        capture_output=True,
        text=True,
    )
    return ran.stderr.strip().split("\n")[-1]


def meanwhile():
    """What is wrong where finalizers, signal handlers and threads call at the same time; also that it does not end."""
    program = os.path.join(os.path.dirname(os.path.abspath(__file__)), "meanwhile.py")
    try:
        ran = subprocess.run([sys.executable, "-B", program], capture_output=True, text=True, timeout=60)
    except subprocess.TimeoutExpired:
        return "calls wait for each other"
    return "" if ran.returncode == 0 and ran.stdout.endswith(" 0 wrong\n") else ran.stdout + ran.stderr


class Last:
    """What only the collector of cycles frees, with a Locale that it reads then."""

    def __init__(self, found, locale=None):
        self.itself, self.found = self, found
        self.locale = locale or Locale("en-GB-x-a")

    def __del__(self):
        self.found.append((self.locale.region, str(self.locale)))


def read_last():
    """What is wrong of what finalizers read in the collector of cycles, which runs them in any order."""
    found = []
    for _ in range(100):
        Last(found)
        Last(found, Locale("en-GB-x-a"))
    gc.collect()
    return [it for it in found if it != ("GB", "en-GB-x-a")] + [len(found)] * (len(found) != 200)


def held_then():
    """How many handles are held that no Locale has any more."""
    before = len(icu_locale_c._held)
    made = [Locale("en").replace(region="GB").extend_unicode(Locale("en-u-ca-roc")) for _ in range(9)]
    raised(made[0].replace, 5)
    raised(lambda: made[0].replace(region="x"))
    held = len(icu_locale_c._held) - before
    del made
    gc.collect()
    return held, len(icu_locale_c._held) - before


def read_by_all(text, wanted):
    """What threads find that read each part of one Locale for the first time, all at once."""
    wrong = []

    def look(locale, barrier):
        barrier.wait()
        found = (locale.language, locale.script, locale.region, locale.variants, dict(locale.keywords), locale.attributes)
        found += (locale.transform_language, dict(locale.fields), locale.private, dict(locale.others), str(locale))
        wrong.extend([found] * (found != wanted))

    for _ in range(100):
        locale, barrier = Locale(text), threading.Barrier(8)
        in_threads(look, [(locale, barrier)] * 8)
    return wrong


def shared():
    """What threads find that read and compare the same locales. These are long, so that a call is likely to run while another
    does."""
    texts = [f"{it}{'-abcdefgh' * 2000}" for it in ("en-GB-aaaaa-bbbbb-u-ca-roc-x", "de-u-co-phonebk-x")]
    locales, wrong = [Locale(it) for it in texts], []

    def look(first, second):
        for _ in range(200):
            if locales[first].strict_cmp(texts[first]) or (locales[first] < locales[second]) != (first > second):
                wrong.append(texts[first][:5])

    in_threads(look, ((0, 1), (1, 0)) * 4)
    return wrong


def kept_by(*words):
    """How many bytes or characters the longest text of a refusal has that a pickle and its frames keep, and what it says."""
    try:
        normalize(*words)
    except LocaleError as refusal:
        again, frames = pickle.loads(pickle.dumps(refusal)), []
        at = refusal.__traceback__.tb_next
        while at:
            frames += (it for it in at.tb_frame.f_locals.values() if it is not words[0] and isinstance(it, (str, bytes)))
            at = at.tb_next
        lengths = [len(it) for it in (refusal.text, refusal.piece, again.text, again.piece, refusal.args[1], *frames)]
        return max(lengths), len(pickle.dumps(refusal)) < 5000, str(again), again.piece[:9], again.start, again.end


def interrupted(drop):
    """Whether Ctrl-C is raised that comes right before Locales go, and what Python lost. Only C runs between the two."""
    lost, sys.unraisablehook = [], lambda it: lost.append(it.exc_type)
    interrupt = functools.partial(ctypes.CDLL(None)["raise"], signal.SIGINT)
    # (a shell has what it runs beside itself ignore Ctrl-C)
    before = signal.signal(signal.SIGINT, signal.default_int_handler)
    try:
        any(map(operator.methodcaller("__call__"), (interrupt, drop)))
    except KeyboardInterrupt:
        return True, lost
    finally:
        signal.signal(signal.SIGINT, before)
        sys.unraisablehook = sys.__unraisablehook__
    return False, lost


def named():
    """A Locale of another class is one after each call, with what the class added."""
    it = Named("EN-us", "mine")
    found = [it.replace(region="GB"), it.extend_unicode(HELD), copy.copy(it), copy.deepcopy(it)]
    found += [pickle.loads(pickle.dumps(it, number)) for number in range(pickle.HIGHEST_PROTOCOL + 1)]
    return {(type(it), it.name) for it in found}, {str(it) for it in found[4:]}


def by_pydantic():
    """What pydantic makes of a Locale, if it is there."""
    if importlib.util.find_spec("pydantic") is None:
        print("pydantic is not here, so its validator is not tried", file=sys.stderr)
        return []
    import pydantic

    adapter = pydantic.TypeAdapter(Dict[str, Locale])
    it, python = adapter.validate_json('{"a": "EN-us"}'), adapter.validate_python({"a": HELD, "b": "DE"})
    refused = [raised(adapter.validate_json, text) for text in ('{"a": "en-"}', '{"a": 5}', '{"a": null}')]
    refused += [raised(adapter.validate_python, {"a": given}) for given in ("e", 5, None)]
    assert set(refused) == {pydantic.ValidationError}, refused
    assert pydantic.TypeAdapter(Locale).json_schema() == {"type": "string"}
    assert adapter.dump_python(it) == it and python["a"] is HELD
    return [str(it["a"]), str(python["b"]), adapter.dump_json(it)]


def calls_in(call):
    """How many calls of Python and of C are made within this one: what it costs, on any machine."""
    seen = []
    sys.setprofile(lambda _frame, event, _given: seen.append(event))
    try:
        call()
    finally:
        sys.setprofile(None)
    return sum(it in ("call", "c_call") for it in seen) - 1  # less that of setprofile


def first_calls(locale):
    """Whether the first read of a part makes few calls, and the next one fewer."""
    read = lambda: locale.region
    return calls_in(read) <= 11, calls_in(read) <= 2


LONG = "de-aaaaa-bbbbb-ccccc-ddddd-eeeee-t-und-m0-abc-u-aaa-ca-islamic-civil-x-a-b-c-d-e"
LONGER = "en-x" + "-abcdefgh" * 99
HELD = Locale("en-US-posix-u-foo-ca-buddhist")
ALL = "en-Latn-GB-posix-a-foo-t-de-m0-din-u-aaa-ca-roc-x-p-q"
NAMES = ("language", "script", "region", "variants", "keywords", "attributes", "transform_language", "fields", "private", "others")
PARTS = ("en", "Latn", "GB", ("posix",), {"ca": "roc"}, ("aaa",), "de", {"m0": "din"}, "x-p-q", {"a": "foo"}, ALL)
with_part = lambda **parts: raised(lambda: str(HELD.replace(**parts)))

# What may stand at the beginning, and right after a language, by UTS #35, section 3.1.
FIRST, NEXT = ": a language may stand here", ": a script, a region, a variant or an extension may stand here"

CASES = [
    (raised(normalize, 5), TypeError),
    (raised(normalize, None), TypeError),
    (raised(normalize, ["en"]), TypeError),
    (raised(normalize, {"en": 1}), TypeError),
    (raised(normalize, Lengthy()), TypeError),
    (raised(check, 5), TypeError),
    (raised(strict_cmp, "en", 5), TypeError),
    (raised(normalizing_eq, 5, "en"), TypeError),
    (raised(compare, "en", None), TypeError),
    (raised(is_valid, 5), TypeError),
    (raised(is_valid, "en", 3), ValueError),
    ([raised(is_valid, "en-u-sd-gbeng", it) for it in Mode], [False, True, True]),
    ([raised(is_valid, it) for it in ("", "e", "en-\ud800", b"en-\xff", FalseText("EN"), "en-a-bb-a-cc", "en-u")], [False] * 4 + [True] + [False] * 2),
    (raised(normalize, "en", "locale"), TypeError),
    (raised(normalize, "en", None), TypeError),
    (raised(normalize, "en", 3), ValueError),
    (raised(normalize, "en", 256), ValueError),
    # numbers of any type, with the module _quick and without it
    ([raised(normalize, it, Number(2)) for it in ("en-u-sd-gbeng", b"en-u-sd-gbeng")], ["en-GB-u-sd-gbeng"] * 2),
    ([raised(call, "en-x-a", Number(it)) for call in (normalize, check) for it in (0, 3, -1, None)], [InvalidSubtag, ValueError, ValueError, ZeroDivisionError] * 2),
    ([raised(normalize, "en", it) for it in (True, 1 << 32, (1 << 32) + 1, -1, 1 << 64, 1.0)], ["en"] + [ValueError] * 4 + [TypeError]),
    (HELD.data_locale(Number(1)), HELD.data_locale()),
    (check("en"), True),
    (raised(normalize, FalseText("EN-us")), "en-US"),
    (raised(normalize, FalseBytes(b"EN-us")), "en-US"),
    (raised(normalize, bytearray(b"EN-us")), "en-US"),
    (raised(normalize, memoryview(b"EN-us-x")[:5]), "en-US"),
    (raised(normalize, memoryview(b"E-N----us")[::2]), raised(normalize, b"EN--s")),
    (raised(normalize, array.array("B", b"EN-us")), "en-US"),
    (raised(normalize, "\ud800"), InvalidLanguage),
    (raised(normalize, "en-\ud800"), InvalidSubtag),
    (raised(normalizing_eq, "en", "\ud800"), False),
    (raised(normalize, "en\0"), InvalidLanguage),
    (raised(normalize, ""), InvalidLanguage),
    (raised(normalize, "en-\N{LATIN SMALL LETTER E WITH ACUTE}\N{LATIN SMALL LETTER E WITH ACUTE}"), InvalidSubtag),
    (raised(normalize, "und-u-sd-419a", Mode.DATA_LOCALE), "und-419-u-sd-419a"),
    (raised(compare, "de-u-sd-detn", "DE-u-sd-DETN", Mode.DATA_LOCALE), 0),
    (issubclass(LocaleError, ValueError), True),
    (raised(Locale), TypeError),
    (raised(Locale, 5), TypeError),
    (raised(Locale, None), TypeError),
    (raised(Locale, HELD), TypeError),
    (raised(Locale, "e"), InvalidLanguage),
    (raised(Locale, "en-\ud800"), InvalidSubtag),
    (raised(Locale, "en-u"), InvalidExtension),
    (raised(Locale, "en-a-bb-a-cc"), DuplicatedExtension),
    (str(Locale(FalseText("EN-us"))), "en-US"),
    (str(Locale(memoryview(b"EN-us-x")[:5])), "en-US"),
    (str(Locale(LONG.upper())), LONG),
    ((str(Locale(LONGER)), Locale(LONGER).private, Locale(LONGER).base_name), (LONGER, LONGER[3:], "en")),
    (with_part(), "en-US-posix-u-foo-ca-buddhist"),
    (with_part(language=None, script="latn", region=b"419"), "und-Latn-419-posix-u-foo-ca-buddhist"),
    (with_part(variants=(it for it in ["MACOS", "1994"]), attributes=()), "en-US-1994-macos-u-ca-buddhist"),
    (with_part(keywords={"KN": "TRUE", b"ca": "islamic-civil"}), "en-US-posix-u-foo-ca-islamic-civil-kn"),
    (with_part(language=""), "und-US-posix-u-foo-ca-buddhist"),
    (with_part(language="e"), InvalidLanguage),
    (with_part(language=5), TypeError),
    (with_part(region="USA"), InvalidSubtag),
    (with_part(script=["Latn"]), TypeError),
    (with_part(variants="posix"), TypeError),
    (with_part(variants=None), TypeError),
    (with_part(variants=["pos"]), InvalidSubtag),
    (with_part(variants=[""]), InvalidSubtag),
    (with_part(attributes=["ab"]), InvalidExtension),
    (with_part(attributes=b"abc"), TypeError),
    (with_part(keywords=[("ca", "roc")]), TypeError),
    (with_part(keywords={"c1": "roc"}), InvalidExtension),
    (with_part(keywords={"ca": "r"}), InvalidSubtag),
    (with_part(keywords={"ca": "ab"}), InvalidSubtag),
    (with_part(keywords={"ca": True}), TypeError),
    (with_part(regions="US"), TypeError),
    (raised(setattr, HELD, "region", "GB"), AttributeError),
    (raised(setattr, HELD, "_handle", None), AttributeError),
    (raised(delattr, HELD, "_handle"), AttributeError),
    (raised(HELD.keywords.__class__.__getitem__, HELD.keywords, "nu"), KeyError),
    (isinstance(HELD.keywords, collections.abc.Mapping) and not hasattr(HELD.keywords, "__setitem__"), True),
    (raised(HELD.data_locale, None), TypeError),
    (raised(HELD.data_locale, "x"), TypeError),
    (raised(HELD.data_locale, 2), ValueError),
    (raised(lambda: HELD < "en"), TypeError),
    ((HELD == "en", HELD != "en", HELD == HELD, HELD <= HELD, HELD < HELD), (False, True, True, True, False)),
    (str(HELD), "en-US-posix-u-foo-ca-buddhist"),
    (f"{Locale('de'):>4}|{Locale('de'):<4}|", "  de|de  |"),
    (pickle.loads(pickle.dumps(Locale(LONG))), Locale(LONG)),
    (copy.deepcopy(HELD) is HELD and copy.copy(HELD) is HELD, True),
    (named(), ({(Named, "mine")}, {"en-US"})),
    (str(Locale.from_parts()), "und"),
    (Locale.from_parts(**{it: getattr(Locale(ALL), it) for it in NAMES}), Locale(ALL)),
    ([raised(lambda: Locale.from_parts(**it)) for it in ({"regions": "US"}, {"variants": "posix"}, {"keywords": {"ca": "ab"}})], [TypeError, TypeError, InvalidSubtag]),
    (by_pydantic(), ["en-US", "de", b'{"a":"en-US"}'] if importlib.util.find_spec("pydantic") else []),
    (interrupted([Locale(ALL)].clear), (True, [])),
    (interrupted([HELD.replace(region=None), HELD._copied()].clear), (True, [])),
    (len({Locale("en-US"), Locale("EN-us"), Locale("en")}), 2),
    ([str(it) for it in sorted(map(Locale, ["und", "en-macos-posix", "en-posix", "de"]))], ["de", "en-posix", "en-macos-posix", "und"]),
    (shared(), []),
    (read_by_all(ALL, PARTS), []),
    (read_last(), []),
    (held_then(), (9, 0)),
    (meanwhile(), ""),
    ([among_others(it) for it in Mode], [True, True, True]),
    ((normalize_many([]), normalize_many(()), normalize_many(iter({"DE": 1}))), ([], [], ["de"])),
    (normalize_many(["und-u-sd-gbeng"], 2), ["und-GB-u-sd-gbeng"]),
    (normalize_many(["en-u-ca"], Mode.IDENTIFIER, "coerce"), [None]),
    (normalize_many(["en-a-\n\n-foo"]), ["en-a-foo"]),
    (said_by(normalize_many, ["de"] * 5000 + ["en-"]), "Invalid subtag: 'en-' at 3..3, text 5000" + NEXT),
    (said_by(normalize_many, [b"", "en"]), "The given language subtag is invalid: b'', text 0" + FIRST),
    (said_by(normalize_many, ["en\n", "e"]), "The given language subtag is invalid: 'en\\n', text 0" + FIRST + "; leave out the blanks"),
    ([raised(normalize_many, it) for it in ("en", b"en", bytearray(b"en"), memoryview(b"en"), 5, None)], [TypeError] * 6),
    ([raised(normalize_many, ["en", it]) for it in (5, None, 1.5, Lengthy())], [TypeError] * 4),
    ([raised(normalize_many, ["en", it], Mode.LOCALE, "coerce") for it in (5, None, float("nan"))], [TypeError] * 3),
    ([raised(normalize_many, ["en"], it) for it in (3, -1, None, "1")], [ValueError, ValueError, TypeError, TypeError]),
    ([raised(normalize_many, ["en"], 1, it) for it in ("ignore", None, "")], [ValueError] * 3),
    (raised(normalize_many, Raising("en", "e")), OSError),
    (LocaleError("x").index, None),
    (at_once(), []),
    (said_by(normalize, "en-"), f"Invalid subtag: 'en-' at 3..3{NEXT}"),
    (said_by(check, b"en-\xff"), f"Invalid extension: b'en-\\xff' at 3..4{NEXT}"),
    (said_by(normalize, memoryview(b"en-")), f"Invalid subtag: b'en-' at 3..3{NEXT}"),
    (said_by(normalize, "en-" + "x" * 99), f"Invalid subtag: 'en-{'x' * 61}'... at 3..102{NEXT}"),
    (said_by(normalize, FalseText("en-")), f"Invalid subtag: 'en-' at 3..3{NEXT}"),
    (said_by(normalize, "e-US"), f"The given language subtag is invalid: 'e-US' at 0..1{FIRST}"),
    (said_by(normalize, "en-\u00e9\U0001f600-US"), f"Invalid subtag: 'en-\u00e9\U0001f600-US' at 3..5{NEXT}"),
    (said_by(normalize, "\ud800"), f"The given language subtag is invalid: '\\ud800'{FIRST}"),
    (said_by(strict_cmp, "e", "en"), f"The given language subtag is invalid: 'e'{FIRST}"),
    (said_by(normalizing_eq, "e", "en"), f"The given language subtag is invalid: 'e'{FIRST}"),
    (said_by(compare, "e", "x"), f"The given language subtag is invalid: 'e'{FIRST}"),
    (said_by(compare, "en", "x"), f"The given language subtag is invalid: 'x'{FIRST}"),
    ([said_by(matches, *it) for it in (("e", "x"), ("en", "x"))], [f"The given language subtag is invalid: '{it}'{FIRST}" for it in "ex"]),
    (said_by(Locale, "en-"), f"Invalid subtag: 'en-' at 3..3{NEXT}"),
    (said_by(Locale, "en-US-toolonggg"), "Invalid subtag: 'en-US-toolonggg' at 6..15: a variant or an extension may stand here"),
    (said_by(Locale, "en-u"), "Invalid extension: 'en-u' at 4..4: an attribute or a key may stand here"),
    (said_by(Locale, "en_US"), f"The given language subtag is invalid: 'en_US'{FIRST}; use hyphens in place of underscores"),
    (said_by(Locale, b"C"), f"The given language subtag is invalid: b'C'{FIRST}; use und, since this name has no language"),
    (said_by(Locale, "en_!"), f"The given language subtag is invalid: 'en_!'{FIRST}"),
    (said_by(lambda: HELD.replace(region="USA")), "Invalid subtag: 'USA'"),
    (said_by(lambda: HELD.replace(variants=["posix", "pos"])), "Invalid subtag: 'pos'"),
    (said_by(lambda: HELD.replace(transform_language="de-a")), "Invalid subtag: 'de-a' at 3..4: a script, a region or a variant may stand here"),
    (said_by(lambda: HELD.replace(keywords={"ca": "r"})), "Invalid subtag: 'ca-r'"),
    (said_by(lambda: HELD.replace(keywords={b"ca": b"ab"})), "Invalid subtag: 'en-US-posix-u-foo-ca-ab'"),
    (said_by(lambda: HELD.replace(fields={"m": "din"})), "Invalid extension: 'm-din'"),
    (said_by(lambda: HELD.replace(others={"a": "b"})), "Invalid extension: 'a-b'"),
    (said_by(lambda: HELD.replace(others={"ab": "cd"})), "Invalid extension: 'ab-cd'"),
    (LocaleError().words, ""),
    ((LocaleError().piece, LocaleError("x", "en-").piece, LocaleError("x", "en-", 3).end), (None, "en-", 3)),
    # what may stand there, by UTS #35, sections 3.1 and 3.2; and what is meant
    (advice("en-foo"), (kinds("SCRIPT", "REGION", "VARIANT", "SINGLETON", "END"), None)),
    (advice("en-Latn-!"), (kinds("REGION", "VARIANT", "SINGLETON", "END"), None)),
    (advice("en-u-\u00e9"), (kinds("ATTRIBUTE", "KEY"), None)),
    (advice("en-u-ca-!"), (kinds("KEY", "VALUE", "SINGLETON", "END"), None)),
    (advice("en-t-!"), (kinds("LANGUAGE", "FIELD"), None)),
    (advice("en-t-m0-!"), (Kinds.FIELD_VALUE, None)),
    (advice("en-a"), (Kinds.OTHER, None)),
    (advice("en-x-!"), (Kinds.PRIVATE, None)),
    (advice("en-US-u-ca", Mode.IDENTIFIER), (kinds("VARIANT", "END"), None)),
    *((advice(text), (Kinds.LANGUAGE, hint)) for text, hint in (("en_US", Hint.UNDERSCORES), ("en_US.UTF-8", Hint.CODESET), ("C", Hint.SYSTEM), ("", None))),
    (advice("en-US ")[1], Hint.BLANKS),
    (advice("\ufeffen")[1], Hint.MARK),
    (advice("en_US_u_ca", Mode.IDENTIFIER)[1], None),
    (advice_of(lambda: HELD.replace(region="U_S")), (Kinds(0), None)),
    (Kinds.VARIANT in advice("en-US-!")[0], True),
    ([str(it) for it in (kinds("LANGUAGE", "FIELD"), Kinds.END, Kinds(0), Hint.MARK)], ["a language or a key of a field", "the end", "nothing", "leave out the byte order mark"]),
    *((place(normalize, "", it), (0, 0, "")) for it in Mode),
    *((place(normalize, "e-US", it), (0, 1, "e")) for it in Mode),
    *((place(check, "en-", it), (3, 3, "")) for it in Mode),
    *((place(normalize, "en--US", it), (3, 3, "")) for it in Mode),
    *((place(strict_cmp, "en-US-toolonggg-posix", "en", it), (6, 15, "toolonggg")) for it in Mode),
    *((place(normalizing_eq, "en-US-\0\0-posix", "en", it), (6, 8, "\0\0")) for it in Mode),
    *((place(compare, "en-!", "e", it), (3, 4, "!")) for it in Mode),
    *((place(compare, "en", "en-US-!", it), (6, 7, "!")) for it in Mode),
    (kept_by("en-" + "x" * 10_000_000), (1000, True, f"Invalid subtag: 'en-{'x' * 61}'... at 3..10000003{NEXT}", "x" * 9, 3, 10_000_003)),
    (kept_by(b"x" * 10_000_000), (1000, True, f"The given language subtag is invalid: b'{'x' * 64}'...{FIRST}", b"x" * 9, 0, 10_000_000)),
    (kept_by("en" + "-abcdefgh" * 1000 + "-!"), (1000, True, f"Invalid subtag: 'en{'-abcdefgh' * 6}-abcdefg'... at 12..20: a variant or an extension may stand here", "abcdefgh", 12, 20)),
    (kept_by("en-x" + "-abcdefgh" * 1000 + "-!"), (1000, True, f"Invalid extension: 'en-x{'-abcdefgh' * 6}-abcde'... at 9005..9006: a private subtag may stand here", "!", 9005, 9006)),
    (str(LocaleError("x", "a" * 1001, 0, 1000)), f"x: '{'a' * 64}'... at 0..1000"),
    # characters of a str, also of one that cannot be encoded; bytes of bytes
    *((place(normalize, "en-\u00e9\U0001f600-US", it), (3, 5, "\u00e9\U0001f600")) for it in Mode),
    *((place(normalize, "en-\ud800-US", it), (3, 4, "\ud800")) for it in Mode),
    *((place(normalize, b"en-US-\0\xff\xff-posix", it), (6, 9, b"\0\xff\xff")) for it in Mode),
    *((place(normalize, "en-\u00e9".encode(), it), (3, 5, b"\xc3\xa9")) for it in Mode),
    (place(Locale, b"en-a-foo-\xc3\xa9-u-!"), (14, 15, b"!")),
    (place(lambda: HELD.replace(transform_language=b"de-\xc3\xa9-!")), (3, 5, b"\xc3\xa9")),
    (place(lambda: HELD.replace(keywords={"ca": b"r"})), (0, 4, b"ca-r")),
    (place(Locale, "en-a-\u00e9\u00e9-!!-b-cc"), (11, 12, "b")),
    ([place(normalize, "en-u", it) for it in Mode], [(3, 4, "u"), (4, 4, ""), (4, 4, "")]),
    ([place(normalize, "en-u-a8", it) for it in Mode], [(3, 4, "u"), (5, 7, "a8"), (5, 7, "a8")]),
    ([place(normalize, "en-a-foo-A-bar", it) for it in Mode], [(3, 4, "a"), (9, 10, "A"), (3, 4, "a")]),
    (place(Locale, "en-t-de-posix-posix"), (14, 19, "posix")),
    (place(Locale, FalseText("en-")), (3, 3, "")),
    (place(normalize, "en-u-sd-", Mode.DATA_LOCALE), (8, 8, "")),
    (place(lambda: HELD.replace(region="USA")), (0, 3, "USA")),
    (place(lambda: HELD.replace(transform_language="de-u-foo")), (3, 4, "u")),
    (place(lambda: HELD.replace(keywords={"ca": "r"})), (0, 4, "ca-r")),
    (place(lambda: HELD.replace(keywords={"ca": "ab"})), (0, 23, "en-US-posix-u-foo-ca-ab")),
    (str(inspect.signature(Locale.replace)).count("= unchanged"), 10),
    ("0x" in str(inspect.signature(Locale.replace)), False),
    (len({id(HELD.keywords) for _ in range(3)}), 1),
    ((HELD.replace(region="GB").region, HELD.region, HELD.replace(region=None).region), ("GB", "US", None)),
    # A part that is read for the first time, and again: docs/SPEED.md says how long that takes.
    (first_calls(Locale("en-GB")), (True, True)),
    ("run bindings/build" in loading("/dev/null"), True),
    ("of header" in loading(sys.executable) or "another library" in loading("libc.so.6"), True),
]


def main():
    failed, tried = doctest.testmod(icu_locale_c)
    page = os.path.join(os.path.dirname(os.path.abspath(__file__)), "README.md")
    more = doctest.testfile(page, module_relative=False)
    failed, tried = failed + more.failed, tried + more.attempted
    wrong = [f"case {at}: {got!r}, and not {wanted!r}" for at, (got, wanted) in enumerate(CASES) if got != wanted]
    print("\n".join(wrong) or f"{tried + len(CASES)} cases as wanted")
    return bool(failed or wrong)


if __name__ == "__main__":
    sys.exit(main())
