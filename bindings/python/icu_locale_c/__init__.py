"""Unicode locale identifiers, such as en-US-u-ca-buddhist: normalized, checked and compared as texts, or held as a
Locale, with parts.

The work is done by the library of include/icu_locale.h, whose every function is proved. This wrapper is not proved.

>>> locale = Locale("EN-us-u-ca-Buddhist")
>>> locale.region, locale.keywords["ca"]
('US', 'buddhist')
>>> print(locale.replace(region="GB"))
en-GB-u-ca-buddhist
>>> normalize("EN-us-u-ca-Buddhist")
'en-US-u-ca-buddhist'
>>> normalize("en-US-foo")
Traceback (most recent call last):
icu_locale_c.InvalidSubtag: Invalid subtag: 'en-US-foo' at 6..9: a variant or an extension may stand here

A text is a str, or bytes (or any bytes-like object) of any encoding. Anything else is a TypeError. A lone surrogate in
a str is refused like any other character that no identifier has.

Any number of threads may call at the same time, and read one Locale; so may a finalizer and a signal handler. No call
waits for another: there is no lock. A call on texts works on copies of its own, and a Locale does not change. No call
needs the lock of the interpreter.

A call that is out of memory raises MemoryError, also where Python itself has none to pass an argument.

The library is the one that the environment variable ICU_LOCALE_LIBRARY names, or the one beside this file (in a
wheel), or the one that bindings/build made, or one that the system finds."""

from __future__ import annotations

import collections
import ctypes
import ctypes.util
import enum
import functools
import importlib
import operator
import os
import pathlib
import types
from typing import (
    Any,
    Callable,
    Deque,
    Dict,
    Iterable,
    List,
    Literal,
    Mapping,
    Optional,
    Set,
    Tuple,
    Type,
    TypeVar,
    Union,
    overload,
)

__all__ = [
    "Locale",
    "Mode",
    "Priority",
    "Kinds",
    "Hint",
    "LocaleError",
    "InvalidLanguage",
    "InvalidSubtag",
    "InvalidExtension",
    "DuplicatedExtension",
    "Text",
    "normalize",
    "normalize_many",
    "check",
    "is_valid",
    "strict_cmp",
    "normalizing_eq",
    "compare",
    "base_name_of",
    "language_of",
    "script_of",
    "region_of",
    "variants_of",
    "keyword_of",
    "parent",
    "matches",
    "clean",
]

HEADER = 7
HERE = pathlib.Path(__file__).resolve().parent
TOP = HERE.parents[2]

Text = Union[str, bytes, bytearray, memoryview]


def _version() -> str:
    """The version of the wheel, or of the repository that this file stands in."""
    for file in (HERE / "VERSION", TOP / "VERSION"):
        if file.is_file():
            return file.read_text(encoding="ascii").strip()
    return "unknown"


__version__ = _version()


class Mode(enum.IntEnum):
    """How a text is parsed."""

    IDENTIFIER = 0
    LOCALE = 1
    DATA_LOCALE = 2


class Priority(enum.IntEnum):
    """Of which region a data locale is: the locale's own, with its keyword sd, or that of its keyword rg."""

    LANGUAGE = 0
    REGION = 1


class Kinds(enum.Flag):
    """Kinds of pieces of a text, as a set: `Kinds.REGION in error.expected`. Its str is the words of the library."""

    LANGUAGE = 1
    SCRIPT = 2
    REGION = 4
    VARIANT = 8
    SINGLETON = 16
    ATTRIBUTE = 32
    KEY = 64
    VALUE = 128
    FIELD = 256
    OTHER = 512
    PRIVATE = 1024
    FIELD_VALUE = 2048
    END = 4096

    def __str__(self) -> str:
        return _words(_library.icu_locale_expected_words, self.value)


class Hint(enum.Enum):
    """What is usually meant by a refused text. Its str says what to do, in the words of the library.

    MARK: a byte order mark begins it. BLANKS: it has a space, a tab, a CR or a newline. SYSTEM: it is C, POSIX or root,
    perhaps with a codeset, and names no language. CODESET: without its codeset and modifier, and with hyphens for its
    underscores, it has a meaning. UNDERSCORES: with hyphens for them it has one."""

    MARK = 1
    BLANKS = 2
    SYSTEM = 3
    CODESET = 4
    UNDERSCORES = 5

    def __str__(self) -> str:
        return _words(_library.icu_locale_hint_words, self.value)


# How many characters or bytes of a refused text an error keeps.
_LONGEST = 1000


class LocaleError(ValueError):
    """A refused text: `words` says why, and `text` is the text, a str or bytes as it was given. It prints both, where the
    fault stands, unless all of the text is at fault, and what may stand there.

    The fault stands at `piece`, which is text[start:end]: in characters of a str, and in bytes of bytes. It is the first
    piece that no text with a meaning has right after the pieces before it. Pieces count whole: that of `en-foo` is `foo`,
    though `en-foobar` has a meaning. If there is no such piece, the text ends too early, and `piece` is empty at its end.
    A part that is refused, such as a region, is all at fault.

    `expected` has the kinds of pieces that may stand at `start`; none if a part was refused. `hint` is what is usually meant
    by a text such as `en_US`, or None.

    Of a long text `text` is the beginning alone, of 1,000 characters or bytes. So is `piece` of a long piece. `start` and
    `end` are the places in the whole text. `index` says which of many texts it was, and is None if there was one alone.

    >>> try:
    ...     normalize("en-US-toolonggg")
    ... except LocaleError as refusal:
    ...     print(refusal)
    ...     print(refusal.start, refusal.end, refusal.piece)
    ...     print(Kinds.VARIANT in refusal.expected, Kinds.REGION in refusal.expected)
    Invalid subtag: 'en-US-toolonggg' at 6..15: a variant or an extension may stand here
    6 15 toolonggg
    True False
    """

    index: Optional[int] = None

    def __init__(
        self,
        words: str = "",
        text: Union[str, bytes, None] = None,
        start: int = 0,
        end: Optional[int] = None,
        expected: Kinds = Kinds(0),
        hint: Optional[Hint] = None,
    ) -> None:
        length = len(text or "")
        self.words, self.start, self.end = words, start, length if end is None else end
        self.text = None if text is None else text[:_LONGEST]
        self.piece = None if text is None else text[start : min(self.end, start + _LONGEST)]
        self.expected, self.hint = expected, hint
        self._is_all = self.end - start == length
        super().__init__(words, self.text, start, self.end, expected, hint)

    def __str__(self) -> str:
        if self.text is None:
            return self.words
        said = f"{self.words}: {self.text[:64]!r}" + ("..." if len(self.text) > 64 else "")
        if not self._is_all:
            said += f" at {self.start}..{self.end}"
        if self.index is not None:
            said += f", text {self.index}"
        if self.expected:
            said += f": {self.expected!s} may stand here"
        return said if self.hint is None else f"{said}; {self.hint!s}"


class InvalidLanguage(LocaleError):
    """The text does not begin with a language."""


class InvalidSubtag(LocaleError):
    """A subtag may not stand where it stands."""


class InvalidExtension(LocaleError):
    """An extension breaks its rules."""


class DuplicatedExtension(LocaleError):
    """An extension begins a second time."""


class _Handle(ctypes.Structure):
    """icu_locale_t"""

    __slots__ = ()
    _fields_ = [("at", ctypes.c_void_p)]


_DONE, _INVALID_SUBTAG, _INVALID_EXTENSION, _BUFFER_TOO_SMALL, _NOT_FOUND = 0, 2, 3, 6, 8
_REFUSALS = {1: InvalidLanguage, 2: InvalidSubtag, 3: InvalidExtension, 4: DuplicatedExtension, 5: MemoryError}
_NUMBER, _BYTES, _SIZE, _BYTE = ctypes.c_uint32, ctypes.c_char_p, ctypes.c_size_t, ctypes.c_uint8
_PLACE, _NUMBER_AT = ctypes.POINTER(_SIZE), ctypes.POINTER(_NUMBER)
_ORDER, _SAME = ctypes.POINTER(ctypes.c_int8), ctypes.POINTER(ctypes.c_uint8)
_LOCALE, _TRUTH = ctypes.POINTER(_Handle), ctypes.c_bool
# (a place to write to is given by its address, which takes half the time)
_TEXT, _BUFFER = (_BYTES, _SIZE), (ctypes.c_void_p, _SIZE, ctypes.c_void_p)
# Of each function its arguments, and what it returns, if that is no status.
# From here on, tools/write_calls writes what tools/calls.txt says.

_FORMS = {
    "normalize": (_NUMBER, *_TEXT, *_BUFFER),
    "normalize_lines": (_NUMBER, *_TEXT, *_BUFFER),
    "check": (_NUMBER, *_TEXT),
    "find_fault": (_NUMBER, *_TEXT, _PLACE, _PLACE),
    "expected": (_NUMBER, *_TEXT, _SIZE, _NUMBER_AT),
    "expected_words": (_NUMBER, *_BUFFER),
    "hint": (_NUMBER, *_TEXT, _NUMBER_AT),
    "hint_words": (_NUMBER, *_BUFFER),
    "strict_cmp": (_NUMBER, *_TEXT, *_TEXT, _ORDER),
    "normalizing_eq": (_NUMBER, *_TEXT, *_TEXT, _SAME),
    "compare": (_NUMBER, *_TEXT, *_TEXT, _ORDER),
    "base_name_of": (_NUMBER, *_TEXT, *_BUFFER),
    "language_of": (_NUMBER, *_TEXT, *_BUFFER),
    "script_of": (_NUMBER, *_TEXT, *_BUFFER),
    "region_of": (_NUMBER, *_TEXT, *_BUFFER),
    "variants_of": (_NUMBER, *_TEXT, *_BUFFER),
    "keyword_of": (_NUMBER, *_TEXT, *_TEXT, *_BUFFER),
    "parent": (_NUMBER, *_TEXT, *_BUFFER),
    "matches": (*_TEXT, *_TEXT, _SAME),
    "clean": (*_TEXT, *_BUFFER),
    "words": (_NUMBER, *_BUFFER),
    "parse": (_LOCALE, *_TEXT),
    "copy": (_LOCALE, _LOCALE),
    "free": (_LOCALE,),
    "is_und": (_LOCALE,),
    "is_well_formed": (_LOCALE,),
    "cmp": (_LOCALE, _LOCALE),
    "eq": (_LOCALE, _LOCALE),
    "cmp_bytes": (_LOCALE, *_TEXT),
    "eq_text": (_LOCALE, *_TEXT, _SAME),
    "hash": (_LOCALE,),
    "to_string": (_LOCALE, *_BUFFER),
    "get_base_name": (_LOCALE, *_BUFFER),
    "get_language": (_LOCALE, *_BUFFER),
    "get_script": (_LOCALE, *_BUFFER),
    "get_region": (_LOCALE, *_BUFFER),
    "set_language": (_LOCALE, *_TEXT),
    "set_script": (_LOCALE, *_TEXT),
    "set_region": (_LOCALE, *_TEXT),
    "variant_count": (_LOCALE,),
    "get_variant": (_LOCALE, _SIZE, *_BUFFER),
    "has_variant": (_LOCALE, *_TEXT),
    "add_variant": (_LOCALE, *_TEXT),
    "remove_variant": (_LOCALE, *_TEXT),
    "clear_variants": (_LOCALE,),
    "keyword_count": (_LOCALE,),
    "get_keyword_key": (_LOCALE, _SIZE, *_BUFFER),
    "get_keyword_value": (_LOCALE, _SIZE, *_BUFFER),
    "get_keyword": (_LOCALE, *_TEXT, *_BUFFER),
    "set_keyword": (_LOCALE, *_TEXT, *_TEXT),
    "remove_keyword": (_LOCALE, *_TEXT),
    "clear_keywords": (_LOCALE,),
    "extend_unicode": (_LOCALE, _LOCALE),
    "attribute_count": (_LOCALE,),
    "get_attribute": (_LOCALE, _SIZE, *_BUFFER),
    "has_attribute": (_LOCALE, *_TEXT),
    "add_attribute": (_LOCALE, *_TEXT),
    "remove_attribute": (_LOCALE, *_TEXT),
    "clear_attributes": (_LOCALE,),
    "get_transform_language": (_LOCALE, *_BUFFER),
    "set_transform_language": (_LOCALE, *_TEXT),
    "field_count": (_LOCALE,),
    "get_field_key": (_LOCALE, _SIZE, *_BUFFER),
    "get_field_value": (_LOCALE, _SIZE, *_BUFFER),
    "get_field": (_LOCALE, *_TEXT, *_BUFFER),
    "set_field": (_LOCALE, *_TEXT, *_TEXT),
    "remove_field": (_LOCALE, *_TEXT),
    "clear_fields": (_LOCALE,),
    "get_private": (_LOCALE, *_BUFFER),
    "set_private": (_LOCALE, *_TEXT),
    "has_other": (_LOCALE, _BYTE),
    "get_other": (_LOCALE, _BYTE, *_BUFFER),
    "set_other": (_LOCALE, *_TEXT),
    "remove_other": (_LOCALE, _BYTE),
    "get_data_locale": (_LOCALE, _NUMBER, *_BUFFER),
    "data_cmp_bytes": (_LOCALE, _NUMBER, *_TEXT, _ORDER),
    "data_cmp": (_LOCALE, _LOCALE, _NUMBER, _ORDER),
    "get_calendar_algorithm": (_LOCALE, *_BUFFER),
    "get_hour_cycle": (_LOCALE, *_BUFFER),
    "get_numbering_system": (_LOCALE, *_BUFFER),
}
_RETURNS: Dict[str, Any] = {
    "free": None,
    "is_und": _TRUTH,
    "is_well_formed": _TRUTH,
    "cmp": ctypes.c_int8,
    "eq": _TRUTH,
    "cmp_bytes": ctypes.c_int8,
    "hash": ctypes.c_uint64,
    "variant_count": _SIZE,
    "has_variant": _TRUTH,
    "keyword_count": _SIZE,
    "attribute_count": _SIZE,
    "has_attribute": _TRUTH,
    "field_count": _SIZE,
    "has_other": _TRUTH,
}

# To here, tools/write_calls writes it.
_REMEDY = "run bindings/build in the repository, or name the library by ICU_LOCALE_LIBRARY"


def _path() -> str:
    """The path of the library."""
    named = os.environ.get("ICU_LOCALE_LIBRARY")
    if named:
        return named
    for file in (HERE / "libicu_locale.so", TOP / "out" / "bindings" / "libicu_locale.so"):
        if file.is_file():
            return str(file)
    found = ctypes.util.find_library("icu_locale")
    if not found:
        raise ImportError(f"libicu_locale.so was not found: {_REMEDY}")
    return found


def _load(path: str) -> ctypes.CDLL:
    """Loads the library, and refuses one that is of another header before any other call."""
    try:
        library = ctypes.CDLL(path)
    except OSError as error:
        raise ImportError(f"{path} could not be loaded ({error}): {_REMEDY}") from None
    try:
        version = library.icu_locale_version
        version.argtypes, version.restype = (), ctypes.c_uint32
        if version() != HEADER:
            raise ImportError(f"{path} is of header {version()}, and this wrapper of header {HEADER}: {_REMEDY}")
        for name, types in _FORMS.items():
            function = getattr(library, f"icu_locale_{name}")
            function.argtypes, function.restype = types, _RETURNS.get(name, _NUMBER)
            function.quick = None  # (how the module _quick calls it)
    except AttributeError as error:
        raise ImportError(f"{path} is another library ({error}): {_REMEDY}") from None
    return library


_library = _load(_path())


def _bytes(text: Any) -> bytes:
    """The text as bytes of a length that no class of the caller's can misstate."""
    if isinstance(text, str):
        return str.encode(text, "utf-8", "surrogatepass")
    try:
        return memoryview(text).tobytes()
    except TypeError:
        raise TypeError(f"a text is str or bytes-like, not {type(text).__name__}") from None


def _sized(text: Any) -> Tuple[bytes, int]:
    """These bytes, and how many there are. No function that raises a refusal keeps them: its frame lasts as long."""
    given = _bytes(text)
    return given, len(given)


def _number(kind: Any, given: Any) -> Any:
    """The mode or priority of this number. Another number is a ValueError, and what is no number a TypeError."""
    return given if type(given) is kind else kind(operator.index(given))


def _call(function: Any, *given: Any) -> Any:
    """What the library answers. Each argument is of its type: one that cannot be passed shows that Python has no memory."""
    try:
        return function(*given)
    except ctypes.ArgumentError:
        raise MemoryError from None


def _raise(status: int, text: Optional[Text] = None, mode: Optional[Mode] = None) -> None:
    """Raises what the status stands for, unless it is done, with the text that was refused. Of a text that was read in a
    mode the library is asked where its fault stands; another text is all at fault."""
    if status == _DONE:
        return
    refusal = _REFUSALS.get(status)
    if refusal is None:
        raise RuntimeError(f"the library gave status {status}, which this wrapper does not know: {_REMEDY}")
    said = _words(_library.icu_locale_words, status)
    if text is None or refusal is MemoryError:
        raise refusal(said)
    raise refusal(said, *_shown(text, mode))


def _words(call: Any, number: int) -> str:
    """The words that the library has of a number. The header says that 192 bytes are enough."""
    words, needed = ctypes.create_string_buffer(192), ctypes.c_size_t()
    _call(call, number, words, 192, ctypes.addressof(needed))
    return words.raw[: needed.value].decode()


def _shown(text: Text, mode: Optional[Mode]) -> Tuple[Any, ...]:
    """The text, as a str if it was one and else as bytes; where the fault stands in that; what may stand there; and what is
    usually meant."""
    given, length = _sized(text)
    start, end, kinds, hint = ctypes.c_size_t(), ctypes.c_size_t(length), ctypes.c_uint32(), ctypes.c_uint32()
    if mode is not None:
        _call(_library.icu_locale_find_fault, mode, given, length, ctypes.byref(start), ctypes.byref(end))
        _call(_library.icu_locale_expected, mode, given, length, start, ctypes.byref(kinds))
        _call(_library.icu_locale_hint, mode, given, length, ctypes.byref(hint))
    more = Kinds(kinds.value), Hint(hint.value) if hint.value else None
    if not isinstance(text, str):
        return (given, start.value, end.value, *more)
    # A piece begins and ends beside a hyphen, or where the text does.
    return (_decoded(given), len(_decoded(given[: start.value])), len(_decoded(given[: end.value])), *more)


def _decoded(given: bytes) -> str:
    return given.decode("utf-8", "surrogatepass")


class _Buffer:
    """Room for an answer and for its length, with the addresses of both."""

    __slots__ = ("bytes", "needed", "at", "needed_at", "room")

    def __init__(self, room: int) -> None:
        self.bytes, self.needed, self.room = ctypes.create_string_buffer(room), ctypes.c_size_t(), room
        self.at, self.needed_at = ctypes.addressof(self.bytes), ctypes.addressof(self.needed)


# The room of a buffer that is kept for other calls.
_USUAL = 256
# Buffers that no call has now. A call has one for itself, also while another begins within it or in another thread.
_free_buffers: Deque[_Buffer] = collections.deque(maxlen=8)
_normalize, _parse = _library.icu_locale_normalize, _library.icu_locale_parse
_normalize_lines = _library.icu_locale_normalize_lines
# (What frees a handle has no types of arguments, so that calling it takes no memory.)
_free = _library["icu_locale_free"]
_free.restype = None


def _address(function: Any) -> Any:
    """Where a function of the library stands."""
    return ctypes.cast(function, ctypes.c_void_p).value


def _quicker() -> Tuple[Optional[Callable[[Any, Any], Optional[str]]], Optional[Callable[..., List[Optional[str]]]]]:
    """How the module _quick of this library normalizes one text, and many, if the wheel has it. It also reads each part that
    one call gives. It answers what it can, and else None."""
    try:
        quick: Any = importlib.import_module(f"{__name__}._quick")
    except ImportError:
        return None, None
    quick.use(_address(_normalize))
    for name, types in _FORMS.items():
        if types == (_LOCALE, *_BUFFER):
            function = getattr(_library, f"icu_locale_{name}")
            function.quick = functools.partial(quick.part, _address(function))
    return quick.normalize, quick.many


_quick_normalize, _quick_many = _quicker()


def _taken(room: int) -> _Buffer:
    """A buffer with at least this room, which is the caller's alone."""
    try:
        buffer = _free_buffers.pop()
    except IndexError:
        return _Buffer(max(room, _USUAL))
    return buffer if room <= buffer.room else _Buffer(room)


def _given_back(buffer: _Buffer) -> str:
    """The text that was written to a buffer, which another call may have then, unless it is long."""
    text = buffer.bytes.raw[: buffer.needed.value].decode("ascii")
    if buffer.room <= _USUAL:
        _free_buffers.append(buffer)
    return text


def normalize(text: Text, mode: Mode = Mode.LOCALE) -> str:
    """Returns the normal form of the text.

    >>> normalize("und-u-sd-gbeng", Mode.DATA_LOCALE)
    'und-GB-u-sd-gbeng'
    >>> normalize(5)
    Traceback (most recent call last):
    TypeError: a text is str or bytes-like, not int
    """
    if _quick_normalize is not None:
        quickly = _quick_normalize(text, mode)
        if quickly is not None:
            return quickly
    mode = _number(Mode, mode)
    status, normal = _written(_normalize, text, mode)
    _raise(status, text, mode)
    return normal


def _written(call: Any, text: Text, mode: Mode, *more: Any) -> Tuple[int, str]:
    """The status of a call on the text, and what it writes if it is done."""
    given, length = _sized(text)
    buffer = _taken(length + 4)
    status = _call(call, mode, given, length, *more, buffer.at, length + 4, buffer.needed_at)
    return status, "" if status else _given_back(buffer)


@overload
def normalize_many(texts: Iterable[Text], mode: Mode = ..., errors: Literal["raise"] = ...) -> List[str]: ...


@overload
def normalize_many(texts: Iterable[Text], mode: Mode = ..., *, errors: Literal["coerce"]) -> List[Optional[str]]: ...


@overload
def normalize_many(texts: Iterable[Text], mode: Mode, errors: Literal["coerce"]) -> List[Optional[str]]: ...


def normalize_many(texts: Iterable[Text], mode: Mode = Mode.LOCALE, errors: str = "raise") -> Any:
    """Returns the normal form of each text, as normalize gives it: a list, in a fraction of the time.

    If texts are refused, the first raises its LocaleError, whose `index` says which text it is. With errors="coerce"
    each of them is None instead.

    >>> normalize_many(["EN-us", "zh-hant-TW"])
    ['en-US', 'zh-Hant-TW']
    >>> normalize_many(["EN-us", "en-", b"DE"], errors="coerce")
    ['en-US', None, 'de']
    >>> normalize_many(["EN-us", "en-US-foo"])
    Traceback (most recent call last):
    icu_locale_c.InvalidSubtag: Invalid subtag: 'en-US-foo' at 6..9, text 1: a variant or an extension may stand here
    """
    if errors not in ("raise", "coerce"):
        raise ValueError(f"errors is 'raise' or 'coerce', not {errors!r}")
    if isinstance(texts, (str, bytes, bytearray, memoryview)):
        raise TypeError(f"texts are an iterable of texts, and not one text, of {type(texts).__name__}")
    mode, given, is_coerced = _number(Mode, mode), list(texts), errors == "coerce"
    other = functools.partial(_normal_at, given, mode, is_coerced)
    if _quick_many is not None:
        return _quick_many(given, mode, is_coerced, other)
    normals: List[Optional[str]] = []
    for start in range(0, len(given), _AT_ONCE):
        normals += _by_lines(given[start : start + _AT_ONCE], mode, is_coerced, lambda at: other(start + at))
    return normals


# How many texts are given to the library at once.
_AT_ONCE = 4096


def _normal_at(texts: List[Text], mode: Mode, is_coerced: bool, at: int) -> Optional[str]:
    """The normal form of one of many texts, by a call of its own. If it is refused, None or its error, with its index."""
    try:
        return normalize(texts[at], mode)
    except LocaleError as refusal:
        if is_coerced:
            return None
        refusal.index = at
        raise


def _by_lines(texts: List[Text], mode: Mode, is_coerced: bool, other: Callable[[int], Optional[str]]) -> List[Optional[str]]:
    """The normal form of each text, by one call for all of them; what that does not answer is asked of `other`."""
    lines, no_lines = _as_lines(texts)
    answers = _answers(lines, len(texts), mode)
    normals: List[Any] = answers.split("\n")[:-1]
    if "!" in answers:
        for at, it in enumerate(normals):
            if it[0] == "!":
                normals[at] = None if is_coerced and at not in no_lines else other(at)
    return normals


def _as_lines(texts: List[Any]) -> Tuple[bytes, Set[int]]:
    """The texts as lines; and which of them cannot be lines, since they hold a newline: in their place a line is empty."""
    try:
        lines = str.encode("\n".join([*texts, ""]), "utf-8", "surrogatepass")
    except TypeError:
        lines = b"\n".join([*map(_bytes, texts), b""])
    if lines.count(b"\n") == len(texts):
        return lines, set()
    every = [*map(_bytes, texts)]
    no_lines = {at for at, it in enumerate(every) if b"\n" in it}
    return b"\n".join([*(b"" if at in no_lines else it for at, it in enumerate(every)), b""]), no_lines


def _answers(lines: bytes, count: int, mode: Mode) -> str:
    """What the library answers to so many lines: each answer has at most 39 bytes more than its line."""
    room, length = len(lines) + 39 * count, len(lines)
    answers, needed = bytearray(room), ctypes.c_size_t()
    at = ctypes.addressof(_BYTE.from_buffer(answers))
    _raise(_call(_normalize_lines, mode, lines, length, at, room, ctypes.addressof(needed)))
    return str(memoryview(answers)[: needed.value], "ascii")


def check(text: Text, mode: Mode = Mode.LOCALE) -> bool:
    """Returns True if the text has a meaning, and raises why it has none: is_valid returns False then.

    >>> check("en-US-u-ca-buddhist")
    True
    >>> check("en-US-u-ca-buddhist", Mode.IDENTIFIER)
    Traceback (most recent call last):
    icu_locale_c.InvalidSubtag: Invalid subtag: 'en-US-u-ca-buddhist' at 6..7: a variant may stand here
    """
    mode = _number(Mode, mode)
    _raise(_call(_library.icu_locale_check, mode, *_sized(text)), text, mode)
    return True


def is_valid(text: Text, mode: Mode = Mode.LOCALE) -> bool:
    """Returns whether the text has a meaning.

    >>> is_valid("en-US-u-ca-buddhist"), is_valid("en-US-u-ca-buddhist", Mode.IDENTIFIER), is_valid("en-")
    (True, False, False)
    """
    status = _call(_library.icu_locale_check, _number(Mode, mode), *_sized(text))
    if not issubclass(_REFUSALS.get(status, Exception), LocaleError):
        _raise(status)
    return bool(status == _DONE)


def strict_cmp(text: Text, other: Text, mode: Mode = Mode.LOCALE) -> int:
    """Returns the byte order of the text's normal form against the other text as it stands: -1, 0 or 1.

    >>> strict_cmp("EN-us", "en-US"), strict_cmp("en-US", "EN-us")
    (0, 1)
    """
    order, mode = ctypes.c_int8(), _number(Mode, mode)
    status = _call(_library.icu_locale_strict_cmp, mode, *_sized(text), *_sized(other), ctypes.byref(order))
    _raise(status, text, mode)
    return order.value


def normalizing_eq(text: Text, other: Text, mode: Mode = Mode.LOCALE) -> bool:
    """Returns whether both texts have the same meaning. Only the first is refused.

    >>> normalizing_eq("en-US", "EN-us"), normalizing_eq("en-US", "en-")
    (True, False)
    """
    same, mode = ctypes.c_uint8(), _number(Mode, mode)
    status = _call(_library.icu_locale_normalizing_eq, mode, *_sized(text), *_sized(other), ctypes.byref(same))
    _raise(status, text, mode)
    return same.value == 1


def compare(text: Text, other: Text, mode: Mode = Mode.LOCALE) -> int:
    """Returns the byte order of the normal forms of both texts: -1, 0 or 1.

    >>> compare("EN-us", "en-US"), compare("de", "EN")
    (0, -1)
    """
    order, mode = ctypes.c_int8(), _number(Mode, mode)
    status = _call(_library.icu_locale_compare, mode, *_sized(text), *_sized(other), ctypes.byref(order))
    if status:
        # The first text is refused first.
        _raise(status, text if _call(_library.icu_locale_check, mode, *_sized(text)) else other, mode)
    return order.value


def _told(call: Any, text: Text, mode: Mode, *more: Any) -> Optional[str]:
    """The part that a call gives of a text, or None if there is none."""
    mode = _number(Mode, mode)
    status, part = _written(call, text, mode, *more)
    if status == _NOT_FOUND:
        return None
    _raise(status, text, mode)
    return part


def base_name_of(text: Text, mode: Mode = Mode.LOCALE) -> str:
    """Returns the identifier of what the text means, without extensions.

    >>> base_name_of("EN-latn-us-u-ca-buddhist")
    'en-Latn-US'
    """
    return _told(_library.icu_locale_base_name_of, text, mode) or ""


def language_of(text: Text, mode: Mode = Mode.LOCALE) -> str:
    """Returns the language of what the text means; und if it is unknown.

    >>> language_of("EN-us"), language_of("und-US")
    ('en', 'und')
    """
    return _told(_library.icu_locale_language_of, text, mode) or ""


def script_of(text: Text, mode: Mode = Mode.LOCALE) -> Optional[str]:
    """Returns the script of what the text means, or None.

    >>> script_of("zh-hant-tw"), script_of("zh-TW")
    ('Hant', None)
    """
    return _told(_library.icu_locale_script_of, text, mode) or None


def region_of(text: Text, mode: Mode = Mode.LOCALE) -> Optional[str]:
    """Returns the region of what the text means, or None.

    >>> region_of("zh-hant-tw"), region_of("zh-Hant")
    ('TW', None)
    """
    return _told(_library.icu_locale_region_of, text, mode) or None


def variants_of(text: Text, mode: Mode = Mode.LOCALE) -> Tuple[str, ...]:
    """Returns the variants of what the text means, ascending.

    >>> variants_of("en-posix-macos"), variants_of("en")
    (('macos', 'posix'), ())
    """
    told = _told(_library.icu_locale_variants_of, text, mode)
    return tuple(told.split("-")) if told else ()


def keyword_of(text: Text, key: Text, mode: Mode = Mode.LOCALE) -> Optional[str]:
    """Returns the value of the keyword with this key, in any case, or None. A key that stands alone has an empty value.

    >>> keyword_of("en-u-ca-islamic-civil-kn", "CA"), keyword_of("en-u-kn", "kn"), keyword_of("en", "ca")
    ('islamic-civil', '', None)
    """
    return _told(_library.icu_locale_keyword_of, text, mode, *_sized(key))


def parent(text: Text, mode: Mode = Mode.LOCALE) -> Optional[str]:
    """Returns the parent: without extensions; or else without the last variant, the region, the script; or und, which has
    none.

    >>> parent("EN-latn-us-u-ca-buddhist"), parent("en-Latn"), parent("en"), parent("und")
    ('en-Latn-US', 'en', 'und', None)
    """
    return _told(_library.icu_locale_parent, text, mode)


def matches(text: Text, range: Text) -> bool:
    """Returns whether the range stands for the locale, both in any spelling: the extended filtering of RFC 4647, section
    3.3.2, with und for its wildcard.

    >>> matches("zh-hant-TW", "zh-TW"), matches("de-US", "und-US"), matches("en-x-us", "en-US")
    (True, True, False)
    """
    same = ctypes.c_uint8()
    status = _call(_library.icu_locale_matches, *_sized(text), *_sized(range), ctypes.byref(same))
    if status:
        # The text is refused first.
        is_text = _call(_library.icu_locale_check, Mode.LOCALE, *_sized(text))
        _raise(status, text if is_text else range, Mode.LOCALE)
    return same.value == 1


def clean(name: str) -> str:
    """Returns what the name of a locale, as files and systems write it, is in the form of UTS #35. Nothing is refused.

    >>> clean("sr_RS.UTF-8@latin"), clean("de_DE@phonebook")
    ('sr-Latn-RS', 'de-DE@phonebook')
    """
    given = _bytes(name)
    room = len(given) + 9
    buffer = _Buffer(room)
    _raise(_call(_library.icu_locale_clean, given, len(given), buffer.at, room, buffer.needed_at))
    return buffer.bytes.raw[: buffer.needed.value].decode("utf-8", "surrogatepass")


class _Unchanged:
    """What replace is given of a part that stays."""

    def __repr__(self) -> str:
        return "unchanged"


_KEPT: Any = _Unchanged()
_NONE: Mapping[Any, Text] = types.MappingProxyType({})
_SINGLETONS = "0123456789abcdefghijklmnopqrsvwyz"


def _texts(given: Iterable[Text]) -> Tuple[Text, ...]:
    """The texts, which are not the letters of one."""
    if isinstance(given, (str, bytes, bytearray, memoryview)):
        raise TypeError(f"several texts are wanted, such as a tuple, and not one {type(given).__name__}")
    return tuple(given)


def _joined(texts: Tuple[Text, ...]) -> Union[str, bytes]:
    """The texts with hyphens between them: a str if all are."""
    strs = [it for it in texts if isinstance(it, str)]
    return "-".join(strs) if len(strs) == len(texts) else b"-".join(map(_bytes, texts))


class _Owned(_Handle):
    """A handle that one call makes, and that a Locale has then.

    Its __del__ is a call of C, which needs no memory. In a line of Python a signal handler could run, and what that raises,
    such as KeyboardInterrupt, would be lost: Python drops what a finalizer raises."""

    __slots__ = ("__del__",)

    __del__: Callable[[], None]

    def __init__(self) -> None:
        self.__del__ = functools.partial(_free, ctypes.c_void_p.from_param(ctypes.addressof(self)))

    def read(self, function: Any, *given: Any) -> Optional[str]:
        """The text that a call writes, or None if there is no such part."""
        buffer = _taken(_USUAL)
        try:
            status = function(self, *given, buffer.at, buffer.room, buffer.needed_at)
            if status == _BUFFER_TOO_SMALL:
                buffer = _Buffer(buffer.needed.value)
                status = function(self, *given, buffer.at, buffer.room, buffer.needed_at)
        except ctypes.ArgumentError:
            raise MemoryError from None
        if status == _DONE:
            return _given_back(buffer)
        if status != _NOT_FOUND:
            _raise(status)
        _free_buffers.append(buffer)
        return None

    def change(self, name: str, *texts: Text) -> None:
        """Has the call of this name change the locale by the texts."""
        given: List[Any] = []
        for text in texts:
            given += _sized(text)
        status = _call(getattr(_library, f"icu_locale_{name}"), self, *given)
        if status:
            _raise(status, _joined(texts), Mode.IDENTIFIER if name == "set_transform_language" else None)

    def set(self, part: str, text: Optional[Text]) -> None:
        if text is not _KEPT:
            self.change(f"set_{part}", b"" if text is None else text)

    def fill(self, clear: str, add: str, texts: Iterable[Text]) -> None:
        self.change(clear)
        for given in _texts(texts):
            self.change(add, given)

    def fill_pairs(self, clear: str, put: str, pairs: Mapping[Any, Text]) -> None:
        if not isinstance(pairs, Mapping):
            raise TypeError(f"a mapping of keys to values is wanted, not {type(pairs).__name__}")
        self.change(clear)
        for key, value in pairs.items():
            self.change(put, key, value)

    def fill_others(self, others: Mapping[Any, Text]) -> None:
        if not isinstance(others, Mapping):
            raise TypeError(f"a mapping of singletons to subtags is wanted, not {type(others).__name__}")
        for it in _SINGLETONS:
            status = _call(_library.icu_locale_remove_other, self, ord(it))
            _raise(_DONE if status == _NOT_FOUND else status)
        for key, subtags in others.items():
            text = _joined((key, subtags))
            if len(_bytes(key)) != 1:
                _raise(_INVALID_EXTENSION, text)
            self.change("set_other", text)


# The handles of all Locales, by their tickets, each in a call that does nothing.
_held: Dict[int, Callable[[], bool]] = {}


class _Ticket(int):
    """What a Locale has beside its handle, so that the handle goes last.

    The collector of cycles runs the finalizers of all that it found, in any order. A handle that is held above is not
    among that. So it is not freed before a finalizer that reads the Locale.

    When a ticket is dropped, Python asks for its __del__, which pops the call above, and makes that call. So here too no line
    of Python runs."""

    __slots__ = ()
    __del__ = property(_held.pop)


_T = TypeVar("_T")


def _once(read: Callable[["Locale"], _T]) -> Callable[["Locale"], _T]:
    """Has a part be read from the library the first time alone: a Locale does not change."""
    name = read.__name__

    @functools.wraps(read)
    def part(self: "Locale") -> Any:
        parts = self._parts
        return parts[name] if name in parts else parts.setdefault(name, read(self))

    return part


class Locale:
    """A locale. It does not change: replace makes another one.

    Two are equal if they have the same meaning, and are then hashed alike. The order of < is by parts: language, script,
    region, variants, extensions. A Locale can be pickled, and shared by threads.

    >>> Locale("EN-latn-us-POSIX-u-KN")
    Locale('en-Latn-US-posix-u-kn')
    >>> Locale("en-US") == Locale("EN-us"), Locale("de") < Locale("en")
    (True, True)
    >>> Locale("en-")
    Traceback (most recent call last):
    icu_locale_c.InvalidSubtag: Invalid subtag: 'en-' at 3..3: a script, a region, a variant or an extension may stand here
    """

    __slots__ = ("_handle", "_ticket", "_parts", "__weakref__")

    _handle: _Owned
    _ticket: _Ticket
    _parts: Dict[str, Any]

    def __new__(cls, text: Text) -> "Locale":
        handle = _Owned()
        _raise(_call(_parse, handle, *_sized(text)), text, Mode.LOCALE)
        return cls._of(handle)

    @classmethod
    def _of(cls, handle: _Owned) -> "Locale":
        """The Locale of this handle."""
        made, ticket = object.__new__(cls), _Ticket(id(handle))
        _held[int(ticket)] = functools.partial(bool, handle)
        object.__setattr__(made, "_handle", handle)
        object.__setattr__(made, "_ticket", ticket)
        object.__setattr__(made, "_parts", {})
        return made

    def _like(self, handle: _Owned) -> "Locale":
        """The Locale of this handle, of the class of this one, and with what that class added."""
        made = self._of(handle)
        if hasattr(self, "__dict__"):
            made.__dict__.update(self.__dict__)
        return made

    def __setattr__(self, name: str, value: Any) -> None:
        raise AttributeError(f"a Locale does not change: replace makes another one, also with another {name}")

    def __delattr__(self, name: str) -> None:
        raise AttributeError(f"a Locale does not change: {name} stays")

    def _ask(self, function: Any, *given: Any) -> Any:
        """What a call answers of this locale."""
        return _call(function, self._handle, *given)

    def _read(self, function: Any, *given: Any) -> Optional[str]:
        """The text that a call writes, or None if there is no such part."""
        if function.quick is not None:
            text = function.quick(ctypes.addressof(self._handle))
            if text is not None:
                return text or None
        return self._handle.read(function, *given)

    def _part(self, call: Any, *given: Any) -> str:
        """The text of a part that is there."""
        return self._read(call, *given) or ""

    def _list(self, count: Any, call: Any) -> Tuple[str, ...]:
        # No generator and no lambda: Python 3.12 and 3.13 end where they have no memory for what those share.
        found = []
        for at in range(self._ask(count)):
            found.append(self._part(call, at))
        return tuple(found)

    @property
    @_once
    def language(self) -> str:
        """The language; 'und' if it is unknown.

        >>> Locale("en-US").language, Locale("und-US").language
        ('en', 'und')
        """
        return self._part(_library.icu_locale_get_language)

    @property
    @_once
    def script(self) -> Optional[str]:
        """The script, if there is one.

        >>> Locale("sr-latn").script
        'Latn'
        """
        return self._read(_library.icu_locale_get_script) or None

    @property
    @_once
    def region(self) -> Optional[str]:
        """The region, if there is one.

        >>> Locale("es-419").region, Locale("es").region
        ('419', None)
        """
        return self._read(_library.icu_locale_get_region) or None

    @property
    @_once
    def variants(self) -> Tuple[str, ...]:
        """The variants, ascending.

        >>> Locale("en-posix-macos").variants
        ('macos', 'posix')
        """
        return self._list(_library.icu_locale_variant_count, _library.icu_locale_get_variant)

    @property
    @_once
    def keywords(self) -> Mapping[str, str]:
        """The keywords of the extension u, by ascending key. It does not change.

        >>> dict(Locale("en-u-kn-ca-buddhist").keywords)
        {'ca': 'buddhist', 'kn': ''}
        """
        keys = self._list(_library.icu_locale_keyword_count, _library.icu_locale_get_keyword_key)
        values = self._list(_library.icu_locale_keyword_count, _library.icu_locale_get_keyword_value)
        return types.MappingProxyType(dict(zip(keys, values)))

    @property
    @_once
    def attributes(self) -> Tuple[str, ...]:
        """The attributes of the extension u, ascending.

        >>> Locale("en-u-foo-bar").attributes
        ('bar', 'foo')
        """
        return self._list(_library.icu_locale_attribute_count, _library.icu_locale_get_attribute)

    @property
    @_once
    def transform_language(self) -> Optional[str]:
        """The identifier of the extension t, if there is one.

        >>> Locale("en-t-de-latn-m0-din").transform_language
        'de-Latn'
        """
        return self._read(_library.icu_locale_get_transform_language)

    @property
    @_once
    def fields(self) -> Mapping[str, str]:
        """The fields of the extension t, by ascending key. It does not change.

        >>> dict(Locale("en-t-de-latn-m0-din").fields)
        {'m0': 'din'}
        """
        keys = self._list(_library.icu_locale_field_count, _library.icu_locale_get_field_key)
        values = self._list(_library.icu_locale_field_count, _library.icu_locale_get_field_value)
        return types.MappingProxyType(dict(zip(keys, values)))

    @property
    @_once
    def private(self) -> Optional[str]:
        """The private extension with its x, if there is one.

        >>> Locale("en-x-a-b").private
        'x-a-b'
        """
        return self._read(_library.icu_locale_get_private) or None

    @property
    @_once
    def others(self) -> Mapping[str, str]:
        """The other extensions, by ascending singleton. It does not change.

        >>> dict(Locale("en-b-bar-a-foo-baz-x-a").others)
        {'a': 'foo-baz', 'b': 'bar'}
        """
        found = {}
        for it in _SINGLETONS:
            text = self._read(_library.icu_locale_get_other, ord(it))
            if text:
                found[it] = text[2:]
        return types.MappingProxyType(found)

    @property
    @_once
    def calendar_algorithm(self) -> Optional[str]:
        """The calendar of the keyword ca, as formatters parse it, if it names one.

        >>> Locale("en-u-ca-islamicc").calendar_algorithm, Locale("en-u-ca-foo").calendar_algorithm
        ('islamic-civil', None)
        """
        return self._read(_library.icu_locale_get_calendar_algorithm)

    @property
    @_once
    def hour_cycle(self) -> Optional[str]:
        """The hour cycle of the keyword hc, if it names one.

        >>> Locale("en-u-hc-h12").hour_cycle
        'h12'
        """
        return self._read(_library.icu_locale_get_hour_cycle)

    @property
    @_once
    def numbering_system(self) -> Optional[str]:
        """The numbering system of the keyword nu, if it is one subtag.

        >>> Locale("th-u-nu-thai").numbering_system
        'thai'
        """
        return self._read(_library.icu_locale_get_numbering_system)

    def data_locale(self, priority: Priority = Priority.LANGUAGE) -> str:
        """Returns the text of the data locale, by which data is looked up.

        >>> locale = Locale("en-GB-u-rg-uszzzz")
        >>> locale.data_locale(), locale.data_locale(Priority.REGION)
        ('en-GB', 'en-US')
        """
        return self._part(_library.icu_locale_get_data_locale, _number(Priority, priority))

    @property
    @_once
    def base_name(self) -> str:
        """The identifier alone, without extensions.

        >>> Locale("en-US-u-ca-buddhist").base_name
        'en-US'
        """
        return self._part(_library.icu_locale_get_base_name)

    @property
    @_once
    def is_und(self) -> bool:
        """Whether this is und, with no other part.

        >>> Locale("und").is_und, Locale("und-US").is_und
        (True, False)
        """
        return bool(self._ask(_library.icu_locale_is_und))

    @classmethod
    def from_parts(
        cls,
        *,
        language: Optional[Text] = None,
        script: Optional[Text] = None,
        region: Optional[Text] = None,
        variants: Iterable[Text] = (),
        keywords: Mapping[Any, Text] = _NONE,
        attributes: Iterable[Text] = (),
        transform_language: Optional[Text] = None,
        fields: Mapping[Any, Text] = _NONE,
        others: Mapping[Any, Text] = _NONE,
        private: Optional[Text] = None,
    ) -> Locale:
        """Returns the locale that has these parts, and no others.

        >>> Locale.from_parts(language="en", region="gb", keywords={"ca": "buddhist"})
        Locale('en-GB-u-ca-buddhist')
        >>> Locale.from_parts(language="en", region="GBR")
        Traceback (most recent call last):
        icu_locale_c.InvalidSubtag: Invalid subtag: 'GBR'
        """
        return _again(cls, "und").replace(
            language=language, script=script, region=region, variants=variants, keywords=keywords, attributes=attributes,
            transform_language=transform_language, fields=fields, others=others, private=private,
        )

    def replace(
        self,
        *,
        language: Optional[Text] = _KEPT,
        script: Optional[Text] = _KEPT,
        region: Optional[Text] = _KEPT,
        variants: Iterable[Text] = _KEPT,
        keywords: Mapping[Any, Text] = _KEPT,
        attributes: Iterable[Text] = _KEPT,
        transform_language: Optional[Text] = _KEPT,
        fields: Mapping[Any, Text] = _KEPT,
        others: Mapping[Any, Text] = _KEPT,
        private: Optional[Text] = _KEPT,
    ) -> Locale:
        """Returns a locale that has these parts instead, and else those of this one.

        None clears a language, script, region, transform_language or private. All variants, keywords, attributes,
        fields or others are replaced by those given.

        >>> locale = Locale("en-US-u-ca-buddhist")
        >>> locale.replace(language="fr", region=None)
        Locale('fr-u-ca-buddhist')
        >>> locale.replace(keywords={**locale.keywords, "nu": "thai"})
        Locale('en-US-u-ca-buddhist-nu-thai')
        >>> locale.replace(variants=["POSIX"], keywords={})
        Locale('en-US-posix')
        >>> locale.replace(region="USA")
        Traceback (most recent call last):
        icu_locale_c.InvalidSubtag: Invalid subtag: 'USA'

        A value is refused if its text would not be parsed back as this value:

        >>> locale.replace(keywords={"ca": "ab"})
        Traceback (most recent call last):
        icu_locale_c.InvalidSubtag: Invalid subtag: 'en-US-u-ca-ab'
        """
        made = self._copied()
        made.set("language", language)
        made.set("script", script)
        made.set("region", region)
        made.set("transform_language", transform_language)
        made.set("private", private)
        if variants is not _KEPT:
            made.fill("clear_variants", "add_variant", variants)
        if attributes is not _KEPT:
            made.fill("clear_attributes", "add_attribute", attributes)
        if keywords is not _KEPT:
            made.fill_pairs("clear_keywords", "set_keyword", keywords)
        if fields is not _KEPT:
            made.fill_pairs("clear_fields", "set_field", fields)
        if others is not _KEPT:
            made.fill_others(others)
        if not _call(_library.icu_locale_is_well_formed, made):
            _raise(_INVALID_SUBTAG, made.read(_library.icu_locale_to_string) or "")
        return self._like(made)

    def _copied(self) -> _Owned:
        made = _Owned()
        _raise(_call(_library.icu_locale_copy, made, self._handle))
        return made

    def extend_unicode(self, other: Locale) -> Locale:
        """Returns a locale that also has the attributes and keywords of the other one, whose values win.

        >>> Locale("en-u-foo-ca-roc-hc-h12").extend_unicode(Locale("de-u-bar-ca-buddhist"))
        Locale('en-u-bar-foo-ca-buddhist-hc-h12')
        """
        if not isinstance(other, Locale):
            raise TypeError(f"a Locale is wanted, not {type(other).__name__}")
        made = self._copied()
        _raise(_call(_library.icu_locale_extend_unicode, made, other._handle))
        return self._like(made)

    def data_strict_cmp(self, other: Text, priority: Priority = Priority.LANGUAGE) -> int:
        """Returns the byte order of the text of the data locale against the other text as it stands: -1, 0 or 1.

        >>> Locale("en-GB-x-a").data_strict_cmp("en-GB"), Locale("en-GB").data_strict_cmp("EN-GB")
        (0, 1)
        """
        order, number = ctypes.c_int8(), _number(Priority, priority)
        _raise(self._ask(_library.icu_locale_data_cmp_bytes, number, *_sized(other), ctypes.byref(order)))
        return order.value

    def data_compare(self, other: "Locale", priority: Priority = Priority.LANGUAGE) -> int:
        """Returns the order of the data locales of both by language, script, region part and variant: -1, 0 or 1.

        >>> Locale("en-GB-u-rg-uszzzz").data_compare(Locale("en-US"), Priority.REGION)
        0
        """
        if not isinstance(other, Locale):
            raise TypeError(f"a Locale is wanted, not {type(other).__name__}")
        order, number = ctypes.c_int8(), _number(Priority, priority)
        _raise(self._ask(_library.icu_locale_data_cmp, other._handle, number, ctypes.byref(order)))
        return order.value

    def strict_cmp(self, other: Text) -> int:
        """Returns the byte order of the normal form against the other text as it stands: -1, 0 or 1.

        >>> Locale("EN-us").strict_cmp("en-US"), Locale("EN-us").strict_cmp("EN-us")
        (0, 1)
        """
        return int(self._ask(_library.icu_locale_cmp_bytes, *_sized(other)))

    def normalizing_eq(self, other: Text) -> bool:
        """Returns whether the text means this locale.

        >>> Locale("en-US").normalizing_eq("EN-us"), Locale("en-US").normalizing_eq("en-")
        (True, False)
        """
        same = ctypes.c_uint8()
        _raise(self._ask(_library.icu_locale_eq_text, *_sized(other), ctypes.byref(same)))
        return same.value == 1

    def __eq__(self, other: object) -> bool:
        if not isinstance(other, Locale):
            return NotImplemented
        return bool(self._ask(_library.icu_locale_eq, other._handle))

    def _cmp(self, other: "Locale") -> int:
        return int(self._ask(_library.icu_locale_cmp, other._handle))

    def __lt__(self, other: "Locale") -> bool:
        return self._cmp(other) < 0 if isinstance(other, Locale) else NotImplemented

    def __le__(self, other: "Locale") -> bool:
        return self._cmp(other) <= 0 if isinstance(other, Locale) else NotImplemented

    def __gt__(self, other: "Locale") -> bool:
        return self._cmp(other) > 0 if isinstance(other, Locale) else NotImplemented

    def __ge__(self, other: "Locale") -> bool:
        return self._cmp(other) >= 0 if isinstance(other, Locale) else NotImplemented

    @_once
    def __hash__(self) -> int:
        return int(self._ask(_library.icu_locale_hash))

    @_once
    def __str__(self) -> str:
        return self._part(_library.icu_locale_to_string)

    def __format__(self, form: str) -> str:
        return format(str(self), form)

    def __repr__(self) -> str:
        return f"{type(self).__name__}({str(self)!r})"

    def __copy__(self) -> "Locale":
        return self

    def __deepcopy__(self, _memo: Any) -> "Locale":
        return self

    def __reduce__(self) -> Tuple[Any, ...]:
        return _again, (type(self), str(self)), getattr(self, "__dict__", None)

    @classmethod
    def __get_pydantic_core_schema__(cls, _source: Any, _handler: Any) -> Any:
        """Has pydantic 2 take a Locale, or a str that means one, and write its normal form to JSON."""
        core = importlib.import_module("pydantic_core.core_schema")
        parsed = core.no_info_after_validator_function(cls, core.str_schema())
        either = core.union_schema([core.is_instance_schema(cls), parsed])
        printed = core.to_string_ser_schema(when_used="json")
        return core.json_or_python_schema(json_schema=parsed, python_schema=either, serialization=printed)


def _again(kind: Type[Locale], text: str) -> Locale:
    """What was pickled as this text, of this class."""
    return Locale.__new__(kind, text)
