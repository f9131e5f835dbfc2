"""Refuses each request for memory in turn, for tools/try_bindings: first those of the library alone, then also those of
Python itself. ICU_LOCALE_LIBRARY names the library of tools/refusing.py, and tools/refuse_nth.c is preloaded, for a
Python that takes all memory from malloc (PYTHONMALLOC=malloc).

A call that is refused raises MemoryError, leaves its locale as it was, and leaves no block behind. It prints how many
cases were as wanted; the status is 0 if all were."""

import ctypes
import gc
import os
import pickle
import sys

from icu_locale_c import Locale, LocaleError, Mode, Priority, check, compare, is_valid, normalize, normalize_many
from icu_locale_c import normalizing_eq, strict_cmp

PYTHON = ctypes.CDLL(None)
PYTHON.refuse_request.argtypes = (ctypes.c_ulong,)
HOOKS = ctypes.CDLL(os.environ["ICU_LOCALE_LIBRARY"])
HOOKS.refusing_after.argtypes = (ctypes.c_long,)
for name in ("refusing_refused", "refusing_requests", "refusing_live"):
    getattr(HOOKS, name).restype = ctypes.c_long

STARTS = [
    "und",
    "en",
    "en-aaaaa-bbbbb-ccccc-ddddd",
    "en-aaaaa-bbbbb-ccccc-ddddd-eeeee-a-foo-t-de-m0-abc-abcdefgh-u-aaa-bbb-ccc-ddd-eee-ca-roc-nu-latn-x-a-b-c-d-e",
]
LONG = "de-aaaaa-bbbbb-ccccc-ddddd-eeeee-b-foo-t-und-m0-abc-u-aaa-ca-aaa-bbb-ccc-ddd-eee-co-phonebk-x-a-b-c-d-e"
OTHER = Locale(LONG)
PICKLED = lambda it: pickle.loads(pickle.dumps(it))
CALLS = [
    PICKLED,
    lambda _: Locale(LONG),
    lambda it: it.normalizing_eq(LONG),
    lambda it: it.replace(language="fr", script="Latn", region="GB"),
    lambda it: it.replace(variants=["aaaaa", "bbbbb", "ccccc", "ddddd", "eeeee", "posix"]),
    lambda it: it.replace(keywords={"ca": "buddhist", "nu": "aaa-bbb-ccc-ddd-eee", "hc": "h12"}),
    lambda it: it.replace(attributes=["foo", "bar"]),
    lambda it: it.replace(transform_language="de-aaaaa-bbbbb-ccccc-ddddd-eeeee"),
    lambda it: it.replace(fields={"h0": "aaa-bbb-ccc-ddd-eee", "m0": "din"}),
    lambda it: it.replace(private="x-a-b-c-d-e-f"),
    lambda it: it.replace(others={"a": "foo-bar", "z": "foo"}),
    lambda it: it.extend_unicode(OTHER),
    lambda _: normalize(LONG),
    lambda _: normalize_many(["EN-us", LONG, LONG + "\n"], errors="coerce"),
    lambda _: check(LONG),
    lambda _: is_valid(LONG),
    lambda _: strict_cmp(LONG, LONG),
    lambda _: normalizing_eq("en-x-a-b-c-d-e-f", LONG),
    lambda _: compare(LONG, LONG),
    lambda _: normalizing_eq("en-u-sd-usca", "en-us-u-sd-usca", Mode.DATA_LOCALE),
]
# Reading, comparing and hashing make no request.
QUIET = [
    lambda it, _: (str(it), it.base_name, it.language, it.script, it.region, it.variants, it.attributes, it.is_und),
    lambda it, _: (dict(it.keywords), it.transform_language, dict(it.fields), it.private, dict(it.others)),
    lambda it, other: (it.data_locale(Priority.REGION), it.data_compare(other), it.data_strict_cmp(LONG), it.hour_cycle),
    lambda it, other: (it == other, it < other, hash(it), it.strict_cmp(LONG)),
]


def is_out_of_memory(call, it):
    """Whether the call says that it is out of memory."""
    try:
        call(it)
    except MemoryError:
        return True
    return False


def refuse_each(start, number, call):
    """Refuses each request of the call, and returns how many cases there were, and what is wrong."""
    granted, is_refused = 0, True
    while is_refused:
        before = HOOKS.refusing_live()
        it = Locale(start)
        held = HOOKS.refusing_live()
        HOOKS.refusing_after(granted)
        failed = is_out_of_memory(call, it)
        is_refused = HOOKS.refusing_refused() > 0
        HOOKS.refusing_after(-1)
        if (failed, str(it), HOOKS.refusing_live()) != (is_refused, start, held):
            return granted, [f"call {number} of {start}, request {granted}: out of memory {failed}, {it}"]
        del it
        if HOOKS.refusing_live() != before:
            return granted, [f"call {number} of {start}, request {granted}: a block is left"]
        granted += 1
    return granted, []


def ask_nothing(start, number, call):
    it, other = Locale(start), Locale(LONG)
    HOOKS.refusing_after(0)
    call(it, other)
    requests = HOOKS.refusing_requests()
    HOOKS.refusing_after(-1)
    return 1, [f"quiet call {number} of {start} makes requests"] if requests else []


# The calls that are tried with each request refused to Python too. By SystemError the interpreter says that it lost a
# MemoryError of its own: it does so also in programs that load no library.
FOR_PYTHON = [it for it in CALLS if it is not PICKLED]  # pickle makes another exception of each
FOR_PYTHON += [lambda it, call=call: call(it, OTHER) for call in QUIET]
FOR_PYTHON += [lambda _: Locale("en-a"), lambda _: normalize("en-"), lambda _: normalize_many([b"EN-us", "en-"]), lambda it: sorted([OTHER, it])]
MAY_RAISE = {None, MemoryError, SystemError}


def refusing(number, call, it):
    """What the call raises when this request is refused, unless it refuses a text; and whether one was."""
    kind, was_refused, is_over = None, False, False
    try:
        try:
            PYTHON.refuse_request(number)
            call(it)
        except LocaleError:
            pass
        except Exception as error:
            kind = type(error)
    except MemoryError:  # it was refused to this function
        kind = MemoryError
    while not is_over:
        try:
            was_refused = PYTHON.refuse_request(0) == 1 or was_refused
            is_over = True
        except (MemoryError, ctypes.ArgumentError):
            was_refused = True
    return kind, was_refused


def refuse_python(start, number, call):
    """Refuses each request of a call for memory, also those of Python, and returns how many there were, and what is wrong."""
    it, at, is_refused = Locale(start), 0, True
    while is_refused:
        at += 1
        held = HOOKS.refusing_live()
        kind, is_refused = refusing(at, call, it)
        which = f"call {number} of {start}, request {at} of Python refused"
        if kind not in MAY_RAISE or str(it) != start:
            return at, [f"{which}: {kind}, {it}"]
        # A handle is freed without memory, so also what the refusal left is.
        if (str(OTHER), gc.collect(), HOOKS.refusing_live())[2] != held:
            return at, [f"{which}: {HOOKS.refusing_live() - held} blocks more"]
    return at - 1, []


def main():
    tried = [refuse_each(start, at, call) for start in STARTS for at, call in enumerate(CALLS)]
    tried += [ask_nothing(start, at, call) for start in STARTS for at, call in enumerate(QUIET)]
    gc.freeze()
    if sys.version_info >= (3, 9):  # an earlier interpreter breaks its own heap
        tried += [refuse_python(start, at, call) for start in STARTS[::3] for at, call in enumerate(FOR_PYTHON)]
    wrong = [it for _, faults in tried for it in faults]
    print("\n".join(wrong) or f"{sum(number for number, _ in tried)} cases as wanted")
    return bool(wrong)


sys.exit(main())
