/* Unicode locale identifiers, such as en-US-u-ca-buddhist: normalized, checked and compared as texts, or held as
 * icu_locale_t, with parts to read and to change.
 *
 *     uint8_t buffer[64];
 *     size_t needed;
 *     if (icu_locale_normalize(ICU_LOCALE_LOCALE, text, length, buffer, sizeof buffer, &needed) == ICU_LOCALE_DONE)
 *         fwrite(buffer, 1, needed, stdout);
 *
 * Every function of the library is proved to meet its contract, if its caller keeps what this page asks. The proofs
 * cover no caller. docs/DEFINITIONS.md says what a text means, and why another is refused. The library is for Linux on
 * any x86-64 processor. It is linked as libicu_locale.a or libicu_locale.so: `bindings/build` makes both, and
 * docs/BINDINGS.md shows more of a program. This header is C99, and C++98 or later. Its declarations are written by
 * tools/write_calls from the table tools/calls.txt: change that and not these.
 *
 * A text is a pointer to bytes and their number. The bytes need no encoding and no closing zero. If the number is 0,
 * the pointer may be null: the text is empty. The same holds of a buffer and its room. This is tested at each call, by
 * bindings/c/nothing.c, and not proved: the proofs speak of pointers that are not null.
 *
 * The code uses no instruction of SSE3 or later, unless it was made for a newer processor (`bindings/build --cpu`). It
 * has no unwind tables, because the toolchain writes none: a backtrace stops in a call, and no exception passes through
 * one.
 *
 * Each function returns, ends no program and keeps nothing from one call to the next. Any number of threads may call
 * at the same time. The library promises no answer if the program breaks one of these rules:
 *
 *  - A pointer is valid for the bytes that the number beside it gives. Out-pointers (needed, order, same, start, end,
 *    kinds, hint) are not null, and are aligned as C aligns their type.
 *  - A call writes to its buffer and out-pointers. None of them overlaps another argument: a text cannot be normalized
 *    in place. Two texts that are only read may overlap, or be the same.
 *  - While a call runs, no other thread changes the bytes that it reads, or reads or changes what it writes.
 *  - A buffer and an out-pointer may be uninitialized: their old bytes change no answer.
 *  - malloc, realloc and free of the program are of one allocator, throw nothing, and align each block as C promises (a
 *    block of at least 16 bytes to 16).
 *  - No call comes from a signal handler, or from a forked child of a process with several threads.
 *
 * More rules for handles stand at icu_locale_t. */
#ifndef ICU_LOCALE_H
#define ICU_LOCALE_H

#include <stdbool.h>
#include <stddef.h>
#include <stdint.h>

#if defined(__cplusplus) && __cplusplus >= 201103L
#define ICU_LOCALE_NOEXCEPT noexcept
#elif defined(__GNUC__)
#define ICU_LOCALE_NOEXCEPT __attribute__((nothrow))
#else
#define ICU_LOCALE_NOEXCEPT
#endif
#if defined(__GNUC__)
#define ICU_LOCALE_WRITES(n) __attribute__((nonnull(n))) extern
#define ICU_LOCALE_TELLS __attribute__((warn_unused_result))
#define ICU_LOCALE_TAKES(n) __attribute__((nonnull n)) extern
#else
#define ICU_LOCALE_WRITES(n) extern
#define ICU_LOCALE_TELLS
#define ICU_LOCALE_TAKES(n) extern
#endif
/* Of a call that changes one handle by another: its definition is at the end of this header. In C it has a name of its
 * own in the object file, since the function of the library has the name that stands here. */
#if defined(__GNUC__) && defined(__cplusplus)
#define ICU_LOCALE_TAKES_BOTH(n) extern "C++" __attribute__((nonnull n, nothrow)) inline
#define ICU_LOCALE_BOTH(name)
#elif defined(__GNUC__)
#define ICU_LOCALE_TAKES_BOTH(n) __attribute__((nonnull n, nothrow)) static __inline__
#define ICU_LOCALE_BOTH(name) __asm__(name)
#else
#define ICU_LOCALE_TAKES_BOTH(n) extern
#define ICU_LOCALE_BOTH(name)
#endif
#if defined(__cplusplus) && __cplusplus >= 201103L
#define ICU_LOCALE_INLINE noexcept
#define ICU_LOCALE_NAMED(name) noexcept __asm__(name)
#else
#define ICU_LOCALE_INLINE
#define ICU_LOCALE_NAMED(name) __asm__(name) ICU_LOCALE_NOEXCEPT
#endif

#ifdef __cplusplus
extern "C" {
#endif

/* Changes whenever a function of the library changes its form. icu_locale_version() gives the number of the header that
 * the library was made for. */
#define ICU_LOCALE_VERSION 7

/* How a text is parsed. Any other number is refused with ICU_LOCALE_UNKNOWN_NUMBER. */
typedef uint32_t icu_locale_mode;
enum {
    ICU_LOCALE_IDENTIFIER = 0,  /* a language identifier: en-Latn-US-posix */
    ICU_LOCALE_LOCALE = 1,      /* a locale, an identifier with extensions: en-US-u-ca-buddhist */
    ICU_LOCALE_DATA_LOCALE = 2  /* a data locale: language, script, region or subdivision, and one variant */
};

/* How a call ends. */
typedef uint32_t icu_locale_status;
enum {
    ICU_LOCALE_DONE = 0,
    ICU_LOCALE_INVALID_LANGUAGE = 1,     /* the text does not begin with a language */
    ICU_LOCALE_INVALID_SUBTAG = 2,       /* a subtag may not stand where it stands */
    ICU_LOCALE_INVALID_EXTENSION = 3,    /* an extension breaks its rules */
    ICU_LOCALE_DUPLICATED_EXTENSION = 4, /* an extension begins a second time */
    ICU_LOCALE_OUT_OF_MEMORY = 5,        /* an allocation failed */
    ICU_LOCALE_BUFFER_TOO_SMALL = 6,     /* the answer does not fit into the buffer */
    ICU_LOCALE_UNKNOWN_NUMBER = 7,       /* the number is no mode, priority, status, set of kinds or hint */
    ICU_LOCALE_NOT_FOUND = 8             /* the locale has no such part */
};

/* Kinds of pieces, each with its bit, as icu_locale_expected gives them. */
typedef uint32_t icu_locale_kinds;
enum {
    ICU_LOCALE_KIND_LANGUAGE = 1,       /* a language, at the beginning or after t */
    ICU_LOCALE_KIND_SCRIPT = 2,         /* a script */
    ICU_LOCALE_KIND_REGION = 4,         /* a region */
    ICU_LOCALE_KIND_VARIANT = 8,        /* a variant */
    ICU_LOCALE_KIND_SINGLETON = 16,     /* the byte that begins an extension */
    ICU_LOCALE_KIND_ATTRIBUTE = 32,     /* an attribute of u */
    ICU_LOCALE_KIND_KEY = 64,           /* a key of u */
    ICU_LOCALE_KIND_VALUE = 128,        /* a subtag of the value of a key */
    ICU_LOCALE_KIND_FIELD = 256,        /* the key of a field of t */
    ICU_LOCALE_KIND_OTHER = 512,        /* a piece of another extension */
    ICU_LOCALE_KIND_PRIVATE = 1024,     /* a subtag after x */
    ICU_LOCALE_KIND_FIELD_VALUE = 2048, /* a subtag of the value of a field */
    ICU_LOCALE_KIND_END = 4096          /* the end of the text */
};

/* What is usually meant by a refused text, as icu_locale_hint gives it. */
typedef uint32_t icu_locale_hint_number;
enum {
    ICU_LOCALE_NO_HINT = 0,
    ICU_LOCALE_HINT_MARK = 1,       /* a byte order mark begins it */
    ICU_LOCALE_HINT_BLANKS = 2,     /* it has a space, a tab, a CR or a newline */
    ICU_LOCALE_HINT_SYSTEM = 3,     /* it is C, POSIX or root, perhaps with a codeset: it names no language */
    ICU_LOCALE_HINT_CODESET = 4,    /* without its codeset and modifier, and with hyphens, it has a meaning: en_US.UTF-8 */
    ICU_LOCALE_HINT_UNDERSCORES = 5 /* with hyphens for its underscores it has a meaning: en_US */
};

/* Which region a data locale has. Any other number is refused with ICU_LOCALE_UNKNOWN_NUMBER. */
typedef uint32_t icu_locale_priority;
enum {
    ICU_LOCALE_BY_LANGUAGE = 0, /* the locale's own region, with its keyword sd */
    ICU_LOCALE_BY_REGION = 1    /* that of the keyword rg if it is there and readable, and else as by language */
};

/* Texts. These calls take a text and keep nothing.
 *
 * Memory. Data locales never allocate. An identifier allocates only if it has more than four variants. A locale
 * allocates only if it has
 *
 *  - more than four variants, before or after t;
 *  - more than four attributes, more than one keyword, or more than four values of a keyword;
 *  - more than four subtags after x;
 *  - a field after t, or an extension other than t, u and x.
 *
 * For some of these a call needs no memory all the same. icu_locale_normalizing_eq and icu_locale_compare can also
 * allocate for the other text: they say when. icu_locale_normalize_lines, icu_locale_matches and icu_locale_clean can
 * for any text. Only a call that allocates can end with OUT_OF_MEMORY. */

/* Writes the normal form of the text to the front of the buffer, and its length to *needed.
 *
 *     DONE               the buffer begins with the normal form; the bytes behind it are as before
 *     BUFFER_TOO_SMALL   the buffer is as before, and *needed is the room that the normal form needs
 *     any other status   the buffer is as before, and *needed is 0
 *
 * The normal form of an identifier or a locale is never longer than its text: a buffer of the text's length is enough.
 * The normal form of a data locale can be longer by the region that its subdivision names, at most 4 bytes:
 * und-u-sd-419a gives und-419-u-sd-419a. */
ICU_LOCALE_WRITES(6) ICU_LOCALE_TELLS
icu_locale_status icu_locale_normalize(icu_locale_mode mode, const uint8_t *text, size_t length, uint8_t *buffer,
    size_t room, size_t *needed) ICU_LOCALE_NOEXCEPT;

/* The normal forms of many texts, which are the lines of one text: the answer to a line is its normal form, or, if it is
 * refused, "! " and the words of why. Each answer ends with a newline. The answers to EN-us, en-foo and de are
 *
 *     en-US
 *     ! Invalid subtag
 *     de
 *
 * Writes the answers to the front of the buffer, and their length to *needed.
 *
 *     DONE               the buffer begins with the answers; the bytes behind them are as before
 *     BUFFER_TOO_SMALL   the buffer is as before, and *needed is the room that the answers need
 *     any other status   OUT_OF_MEMORY or UNKNOWN_NUMBER; the buffer is as before, and *needed is 0
 *
 * A refused line is no failure of the call. No normal form has a !, so an answer that begins with one is a refusal, and
 * icu_locale_find_fault says where the fault of its line stands. A line ends with a newline, and a last one without it
 * counts if it is not empty. So a text that holds a newline cannot be a line: pass it to icu_locale_normalize. A CR is a
 * byte of its line like any other. A room of the text's length and 39 bytes for each line is enough.
 * Allocates as much as the answers are long. */
ICU_LOCALE_WRITES(6) ICU_LOCALE_TELLS
icu_locale_status icu_locale_normalize_lines(icu_locale_mode mode, const uint8_t *text, size_t length, uint8_t *buffer,
    size_t room, size_t *needed) ICU_LOCALE_NOEXCEPT;

/* DONE if the text has a meaning in the mode; otherwise why it has none, or OUT_OF_MEMORY. */
extern ICU_LOCALE_TELLS
icu_locale_status icu_locale_check(icu_locale_mode mode, const uint8_t *text, size_t length) ICU_LOCALE_NOEXCEPT;

/* Where the fault of a refused text stands. A piece is what stands before, between or behind hyphens.
 *
 *     DONE               the text has a meaning; *start and *end are as before
 *     UNKNOWN_NUMBER     there is no such mode; *start and *end are as before
 *     any other status   that of icu_locale_check; the piece at fault goes from byte *start to before byte *end
 *
 * The piece at fault is the first that no text with a meaning has right after the pieces before it. Pieces count whole:
 * en-foo gives 3 and 6, though en-foobar has a meaning. If there is none, the text ends too early: *start and *end are
 * then its length. en-US-toolonggg gives 6 and 15, en--US gives 3 and 3, and en-u gives 4 and 4.
 * It never fails, and allocates only for more than 16,384 variants in a row. */
ICU_LOCALE_TAKES((4, 5)) ICU_LOCALE_TELLS
icu_locale_status icu_locale_find_fault(icu_locale_mode mode, const uint8_t *text, size_t length, size_t *start,
    size_t *end) ICU_LOCALE_NOEXCEPT;

/* Which kinds of pieces may stand at a place of the text, such as *start of icu_locale_find_fault: a kind may if some text
 * with a meaning has the pieces before the place, and then a piece of that kind. Each is a bit of *kinds, as
 * ICU_LOCALE_KIND_REGION. What follows the place does not count. A place behind the end counts as the end, and the text
 * may have a meaning. For en-foo and 3 these are a script, a region, a variant, an extension, and the end.
 *
 *     DONE               *kinds has the kinds; for the place of a fault at least one
 *     UNKNOWN_NUMBER     there is no such mode; *kinds is as before
 *
 * It never fails, and allocates only for more than 16,384 variants in a row. A text of a terabyte or more can have all
 * variants that there are; only there it may name a variant where none is left. */
ICU_LOCALE_WRITES(5) ICU_LOCALE_TELLS
icu_locale_status icu_locale_expected(icu_locale_mode mode, const uint8_t *text, size_t length, size_t place,
    icu_locale_kinds *kinds) ICU_LOCALE_NOEXCEPT;

/* Writes the words of a set of kinds, such as "a script, a region, a variant or an extension", to the front of the buffer,
 * and their length to *needed. The end is named only if there is no other kind; the words of no kind are "nothing". It ends
 * with the statuses of icu_locale_normalize. A buffer of 192 bytes is always enough, so its status may be ignored. Only a
 * set with another bit than those of the kinds has no words: UNKNOWN_NUMBER, and *needed is 0. */
ICU_LOCALE_WRITES(4)
icu_locale_status icu_locale_expected_words(icu_locale_kinds set, uint8_t *buffer, size_t room, size_t *needed)
    ICU_LOCALE_NOEXCEPT;

/* What is usually meant by a refused text that comes of a file or a system: ICU_LOCALE_HINT_UNDERSCORES of en_US, since
 * with hyphens it has a meaning. ICU_LOCALE_NO_HINT if nothing is known, and of a text that has a meaning. DONE, or
 * UNKNOWN_NUMBER if there is no such mode: *hint is then as before. It never fails, and allocates as
 * icu_locale_find_fault does. */
ICU_LOCALE_WRITES(4) ICU_LOCALE_TELLS
icu_locale_status icu_locale_hint(icu_locale_mode mode, const uint8_t *text, size_t length,
    icu_locale_hint_number *hint) ICU_LOCALE_NOEXCEPT;

/* Writes the words of a hint, such as "use hyphens in place of underscores", to the front of the buffer, and their length to
 * *needed. It ends with the statuses of icu_locale_normalize. A buffer of 128 bytes is always enough, so its status may be
 * ignored. Only a number that is no hint, and ICU_LOCALE_NO_HINT, has no words: UNKNOWN_NUMBER, and *needed is 0. */
ICU_LOCALE_WRITES(4)
icu_locale_status icu_locale_hint_words(icu_locale_hint_number number, uint8_t *buffer, size_t room, size_t *needed)
    ICU_LOCALE_NOEXCEPT;

/* Writes -1, 0 or 1 to *order: the byte order of the text's normal form against other bytes. The other bytes are not
 * normalized. If the text is refused, *order is as before. */
ICU_LOCALE_WRITES(6) ICU_LOCALE_TELLS
icu_locale_status icu_locale_strict_cmp(icu_locale_mode mode, const uint8_t *text, size_t length, const uint8_t *other,
    size_t other_length, int8_t *order) ICU_LOCALE_NOEXCEPT;

/* Writes 1 to *same if both texts have the same meaning, and 0 if the other has another meaning or none. If the first
 * text is refused, *same is as before. OUT_OF_MEMORY can come from either text, any other refusal from the first alone.
 * Allocates also if the other is a data locale that is not in its normal form. */
ICU_LOCALE_WRITES(6) ICU_LOCALE_TELLS
icu_locale_status icu_locale_normalizing_eq(icu_locale_mode mode, const uint8_t *text, size_t length,
    const uint8_t *other, size_t other_length, uint8_t *same) ICU_LOCALE_NOEXCEPT;

/* Writes -1, 0 or 1 to *order: the byte order of the normal forms of both texts. A refusal is that of the first text,
 * or if the first has a meaning, that of the other. *order is then as before. Allocates also if the other text is not
 * in its normal form. */
ICU_LOCALE_WRITES(6) ICU_LOCALE_TELLS
icu_locale_status icu_locale_compare(icu_locale_mode mode, const uint8_t *text, size_t length, const uint8_t *other,
    size_t other_length, int8_t *order) ICU_LOCALE_NOEXCEPT;

/* Parts of what a text means, without a handle. Each call writes a text to the front of the buffer, and its length to
 * *needed.
 *
 *     DONE               the buffer begins with the part; the bytes behind it are as before
 *     BUFFER_TOO_SMALL   the buffer is as before, and *needed is the room that the part needs
 *     NOT_FOUND          there is no such keyword, or und has no parent; the buffer is as before, and *needed is 0
 *     any other status   that of icu_locale_check, for the text; the buffer is as before, and *needed is 0
 *
 * The part is in its normal form. A script, a region or variants that are absent are an empty text, with DONE. Allocates
 * only for a text of more than 48 bytes, of which each of these calls can end with OUT_OF_MEMORY. */

/* The identifier alone, without extensions: en-Latn-US of en-latn-us-u-ca-buddhist. */
ICU_LOCALE_WRITES(6) ICU_LOCALE_TELLS
icu_locale_status icu_locale_base_name_of(icu_locale_mode mode, const uint8_t *text, size_t length, uint8_t *buffer,
    size_t room, size_t *needed) ICU_LOCALE_NOEXCEPT;

/* Language, script and region: en, Latn, US. The language is und if it is unknown. */
ICU_LOCALE_WRITES(6) ICU_LOCALE_TELLS
icu_locale_status icu_locale_language_of(icu_locale_mode mode, const uint8_t *text, size_t length, uint8_t *buffer,
    size_t room, size_t *needed) ICU_LOCALE_NOEXCEPT;
ICU_LOCALE_WRITES(6) ICU_LOCALE_TELLS
icu_locale_status icu_locale_script_of(icu_locale_mode mode, const uint8_t *text, size_t length, uint8_t *buffer,
    size_t room, size_t *needed) ICU_LOCALE_NOEXCEPT;
ICU_LOCALE_WRITES(6) ICU_LOCALE_TELLS
icu_locale_status icu_locale_region_of(icu_locale_mode mode, const uint8_t *text, size_t length, uint8_t *buffer,
    size_t room, size_t *needed) ICU_LOCALE_NOEXCEPT;

/* The variants, ascending, with hyphens between them: macos-posix. */
ICU_LOCALE_WRITES(6) ICU_LOCALE_TELLS
icu_locale_status icu_locale_variants_of(icu_locale_mode mode, const uint8_t *text, size_t length, uint8_t *buffer,
    size_t room, size_t *needed) ICU_LOCALE_NOEXCEPT;

/* The value of a keyword by its key, in any case: islamic-civil of ca in en-u-ca-islamic-civil. A key that stands alone
 * has an empty value. A text that is no key is NOT_FOUND. */
ICU_LOCALE_WRITES(8) ICU_LOCALE_TELLS
icu_locale_status icu_locale_keyword_of(icu_locale_mode mode, const uint8_t *text, size_t length, const uint8_t *key,
    size_t key_length, uint8_t *buffer, size_t room, size_t *needed) ICU_LOCALE_NOEXCEPT;

/* The parent: the locale without its extensions; or else without its last variant, its region, its script, in this order;
 * or und, if it is a language alone. und itself has none: NOT_FOUND. So en-Latn-US-u-ca-buddhist leads to en-Latn-US,
 * en-Latn, en and und. */
ICU_LOCALE_WRITES(6) ICU_LOCALE_TELLS
icu_locale_status icu_locale_parent(icu_locale_mode mode, const uint8_t *text, size_t length, uint8_t *buffer,
    size_t room, size_t *needed) ICU_LOCALE_NOEXCEPT;

/* Writes 1 to *same if the range stands for the locale, and else 0: the extended filtering of RFC 4647, section 3.3.2, with
 * und for its wildcard. zh-Hant-TW matches zh-TW, zh and und-TW; en-x-us does not match en-US. Both are texts of locales,
 * in any spelling. A refusal is that of the text, or if the text has a meaning, that of the range. *same is then as before.
 * Allocates for either only if icu_locale_check may, or if it is not in its normal form: no other text or range ends with
 * OUT_OF_MEMORY. */
ICU_LOCALE_WRITES(5) ICU_LOCALE_TELLS
icu_locale_status icu_locale_matches(const uint8_t *text, size_t length, const uint8_t *range, size_t range_length,
    uint8_t *same) ICU_LOCALE_NOEXCEPT;

/* What the name of a locale, as files and systems write it, is in the form of UTS #35: sr-Latn-RS of sr_RS.UTF-8@latin.
 * Blanks at both ends, a CR at the end and a codeset are left out; an underscore becomes a hyphen; @euro is left out, and a
 * modifier of glibc that names a script or a variant becomes one. All else stays, and nothing is normalized or refused:
 * pass what is written to another call. At most 9 bytes longer than the text. Ends with DONE, BUFFER_TOO_SMALL, or
 * OUT_OF_MEMORY, since it allocates. */
ICU_LOCALE_WRITES(5) ICU_LOCALE_TELLS
icu_locale_status icu_locale_clean(const uint8_t *text, size_t length, uint8_t *buffer, size_t room, size_t *needed)
    ICU_LOCALE_NOEXCEPT;

/* Writes the words of a status, such as "Invalid subtag", to the front of the buffer, and their length to *needed. It
 * ends with the statuses of icu_locale_normalize. A buffer of 64 bytes is always enough, so its status may be ignored.
 * Only a number that is no status has no words: *needed is then 0. */
ICU_LOCALE_WRITES(4)
icu_locale_status icu_locale_words(icu_locale_status status, uint8_t *buffer, size_t room, size_t *needed)
    ICU_LOCALE_NOEXCEPT;

/* Locales that a program holds.
 *
 *     icu_locale_t locale = ICU_LOCALE_UND;
 *     icu_locale_status status = icu_locale_parse(&locale, text, length);
 *     if (status == ICU_LOCALE_DONE)
 *         status = icu_locale_set_region(&locale, (const uint8_t *)"GB", 2);
 *     icu_locale_free(&locale);
 *
 * A handle starts as {0} and then stands for und, the unknown locale. Every call accepts such a handle. Whenever a
 * handle stands for und after a call that may change it, it is {0} again and owns no memory. Any other handle owns
 * memory until icu_locale_free. These rules come on top of those above:
 *
 *  - A call that only reads takes const icu_locale_t *. Any number of such calls may use one handle at the same time,
 *    in any threads. They write neither to the handle nor to what it points to, so both may lie in memory that cannot
 *    be written: static const icu_locale_t und = ICU_LOCALE_UND;
 *  - A call that changes a handle has it alone: no other call uses the handle meanwhile, in any thread. What one thread
 *    changed another may read if a lock, the start or end of a thread, or a sequentially consistent atomic orders that.
 *  - A handle may be given twice to a call that only reads: it is equal to itself. By this header, read by GCC or
 *    Clang, it may also be copied to itself or extended by itself, and is then as before. With another compiler or from
 *    another language icu_locale_copy and icu_locale_extend_unicode take two handles.
 *  - Only the calls of this header write a handle, and only they read or write what it points to. It is not copied by
 *    = or memcpy: use icu_locale_copy. It may be moved to another place if the old one is no longer used.
 *  - The pointer of a handle is not null. A handle is aligned as C aligns icu_locale_t, and overlaps no text, buffer or
 *    out-pointer of the call.
 *
 * It is proved that a handle is as before after each call that only reads. That such a call writes nothing meanwhile is
 * tested, by bindings/c/readers.c. No contract can say that nothing changes or frees a handle while calls read it: that
 * is for the program to keep.
 *
 * A call that changes a handle ends in one of three ways. DONE: the locale has changed as the call says. A refusal:
 * the locale is as before, and the status names what is wrong with the text. OUT_OF_MEMORY: the locale is as before.
 * Each such call can allocate on a handle that stands for und, if the handle stands for another locale afterwards.
 * What else it allocates is said at the call. */
typedef struct icu_locale_t {
    void *at;
} icu_locale_t;

/* What a handle starts as: icu_locale_t locale = ICU_LOCALE_UND; */
#define ICU_LOCALE_UND {NULL}

/* The locale becomes what the text means. Statuses are those of icu_locale_check for a locale. Allocates for each part
 * that is listed under "Memory" above, where icu_locale_check may do without; and for a handle that is {0}, if the text
 * means another locale than und. Of other texts none ends with OUT_OF_MEMORY. */
ICU_LOCALE_TAKES((1)) ICU_LOCALE_TELLS
icu_locale_status icu_locale_parse(icu_locale_t *locale, const uint8_t *text, size_t length) ICU_LOCALE_NOEXCEPT;

/* The locale becomes that of the other handle. DONE or OUT_OF_MEMORY. */
ICU_LOCALE_TAKES_BOTH((1, 2)) ICU_LOCALE_TELLS
icu_locale_status icu_locale_copy(icu_locale_t *locale, const icu_locale_t *from)
    ICU_LOCALE_BOTH("icu_locale_copy_or_itself") ICU_LOCALE_NOEXCEPT;

/* Frees what the handle owns. It is {0} then, and stands for und. */
ICU_LOCALE_TAKES((1))
void icu_locale_free(icu_locale_t *locale) ICU_LOCALE_NOEXCEPT;

/* Whether the locale is und, with no other part. */
ICU_LOCALE_TAKES((1)) ICU_LOCALE_TELLS
bool icu_locale_is_und(const icu_locale_t *locale) ICU_LOCALE_NOEXCEPT;

/* Whether the text of the locale has this locale as its meaning. True for each locale that was parsed. False, for
 * example, once a keyword was set to a value with a subtag of two characters, which would be parsed as a key. */
ICU_LOCALE_TAKES((1)) ICU_LOCALE_TELLS
bool icu_locale_is_well_formed(const icu_locale_t *locale) ICU_LOCALE_NOEXCEPT;

/* The order of two locales by their parts: -1, 0 or 1. It is total: 0 exactly if both are equal. */
ICU_LOCALE_TAKES((1, 2)) ICU_LOCALE_TELLS
int8_t icu_locale_cmp(const icu_locale_t *locale, const icu_locale_t *other) ICU_LOCALE_NOEXCEPT;

/* Whether two locales are equal. */
ICU_LOCALE_TAKES((1, 2)) ICU_LOCALE_TELLS
bool icu_locale_eq(const icu_locale_t *locale, const icu_locale_t *other) ICU_LOCALE_NOEXCEPT;

/* The byte order of the normal form of the locale against other bytes, which are not normalized: -1, 0 or 1. */
ICU_LOCALE_TAKES((1)) ICU_LOCALE_TELLS
int8_t icu_locale_cmp_bytes(const icu_locale_t *locale, const uint8_t *other, size_t length) ICU_LOCALE_NOEXCEPT;

/* Writes 1 to *same if the text means this locale, and else 0. Ends with DONE, or with OUT_OF_MEMORY if parsing the
 * text runs out of memory: *same is then as before. */
ICU_LOCALE_TAKES((1, 4)) ICU_LOCALE_TELLS
icu_locale_status icu_locale_eq_text(const icu_locale_t *locale, const uint8_t *text, size_t length, uint8_t *same)
    ICU_LOCALE_NOEXCEPT;

/* A number of 64 bits: FNV-1a of the bytes of the normal form. Equal locales have equal numbers. It is no protection
 * against someone who chooses locales so that their numbers collide. */
ICU_LOCALE_TAKES((1)) ICU_LOCALE_TELLS
uint64_t icu_locale_hash(const icu_locale_t *locale) ICU_LOCALE_NOEXCEPT;

/* Reading parts. Each call writes a text to the front of the buffer, and its length to *needed. None allocates, and
 * the locale is as before.
 *
 *     DONE               the buffer begins with the text; the bytes behind it are as before
 *     BUFFER_TOO_SMALL   the buffer is as before, and *needed is the room that the text needs
 *     NOT_FOUND          the locale has no such part; the buffer is as before, and *needed is 0
 *
 * Only a call that says so ends with NOT_FOUND. A script or region that is absent is an empty text. Subtags are at most
 * 8 bytes long. */

/* The normal form: en-Latn-US-u-ca-buddhist. */
ICU_LOCALE_TAKES((1, 4)) ICU_LOCALE_TELLS
icu_locale_status icu_locale_to_string(const icu_locale_t *locale, uint8_t *buffer, size_t room, size_t *needed)
    ICU_LOCALE_NOEXCEPT;

/* The identifier alone, without extensions: en-Latn-US. */
ICU_LOCALE_TAKES((1, 4)) ICU_LOCALE_TELLS
icu_locale_status icu_locale_get_base_name(const icu_locale_t *locale, uint8_t *buffer, size_t room, size_t *needed)
    ICU_LOCALE_NOEXCEPT;

/* Language, script and region: en, Latn, US. The language is und if it is unknown. */
ICU_LOCALE_TAKES((1, 4)) ICU_LOCALE_TELLS
icu_locale_status icu_locale_get_language(const icu_locale_t *locale, uint8_t *buffer, size_t room, size_t *needed)
    ICU_LOCALE_NOEXCEPT;
ICU_LOCALE_TAKES((1, 4)) ICU_LOCALE_TELLS
icu_locale_status icu_locale_get_script(const icu_locale_t *locale, uint8_t *buffer, size_t room, size_t *needed)
    ICU_LOCALE_NOEXCEPT;
ICU_LOCALE_TAKES((1, 4)) ICU_LOCALE_TELLS
icu_locale_status icu_locale_get_region(const icu_locale_t *locale, uint8_t *buffer, size_t room, size_t *needed)
    ICU_LOCALE_NOEXCEPT;

/* Sets the language, script or region to the subtag that is the text, in any case. An empty text clears it: a cleared
 * language is und. A text that is no such subtag is refused with INVALID_LANGUAGE or INVALID_SUBTAG. No allocation. */
ICU_LOCALE_TAKES((1)) ICU_LOCALE_TELLS
icu_locale_status icu_locale_set_language(icu_locale_t *locale, const uint8_t *text, size_t length) ICU_LOCALE_NOEXCEPT;
ICU_LOCALE_TAKES((1)) ICU_LOCALE_TELLS
icu_locale_status icu_locale_set_script(icu_locale_t *locale, const uint8_t *text, size_t length) ICU_LOCALE_NOEXCEPT;
ICU_LOCALE_TAKES((1)) ICU_LOCALE_TELLS
icu_locale_status icu_locale_set_region(icu_locale_t *locale, const uint8_t *text, size_t length) ICU_LOCALE_NOEXCEPT;

/* Variants, ascending: how many there are, the one at an index, and whether one is among them, in any case. Indices
 * begin with 0. At an index that is too large, the variant is NOT_FOUND. */
ICU_LOCALE_TAKES((1)) ICU_LOCALE_TELLS
size_t icu_locale_variant_count(const icu_locale_t *locale) ICU_LOCALE_NOEXCEPT;
ICU_LOCALE_TAKES((1, 5)) ICU_LOCALE_TELLS
icu_locale_status icu_locale_get_variant(const icu_locale_t *locale, size_t index, uint8_t *buffer, size_t room,
    size_t *needed) ICU_LOCALE_NOEXCEPT;
ICU_LOCALE_TAKES((1)) ICU_LOCALE_TELLS
bool icu_locale_has_variant(const icu_locale_t *locale, const uint8_t *text, size_t length) ICU_LOCALE_NOEXCEPT;

/* Adds a variant, in any case; one that is there already stays. A text that is no variant is refused with
 * INVALID_SUBTAG. Allocates only if there are four variants or more. */
ICU_LOCALE_TAKES((1)) ICU_LOCALE_TELLS
icu_locale_status icu_locale_add_variant(icu_locale_t *locale, const uint8_t *text, size_t length) ICU_LOCALE_NOEXCEPT;

/* Removes a variant, in any case; NOT_FOUND if it is not there. */
ICU_LOCALE_TAKES((1)) ICU_LOCALE_TELLS
icu_locale_status icu_locale_remove_variant(icu_locale_t *locale, const uint8_t *text, size_t length)
    ICU_LOCALE_NOEXCEPT;

/* Removes all variants. */
ICU_LOCALE_TAKES((1)) ICU_LOCALE_TELLS
icu_locale_status icu_locale_clear_variants(icu_locale_t *locale) ICU_LOCALE_NOEXCEPT;

/* Keywords of the extension u, by ascending key: how many there are, and the key and the value at an index, or
 * NOT_FOUND. The value of a key that stands alone, such as kn in en-u-kn, is an empty text. */
ICU_LOCALE_TAKES((1)) ICU_LOCALE_TELLS
size_t icu_locale_keyword_count(const icu_locale_t *locale) ICU_LOCALE_NOEXCEPT;
ICU_LOCALE_TAKES((1, 5)) ICU_LOCALE_TELLS
icu_locale_status icu_locale_get_keyword_key(const icu_locale_t *locale, size_t index, uint8_t *buffer, size_t room,
    size_t *needed) ICU_LOCALE_NOEXCEPT;
ICU_LOCALE_TAKES((1, 5)) ICU_LOCALE_TELLS
icu_locale_status icu_locale_get_keyword_value(const icu_locale_t *locale, size_t index, uint8_t *buffer, size_t room,
    size_t *needed) ICU_LOCALE_NOEXCEPT;

/* The value of the keyword with this key, in any case: buddhist of ca in en-u-ca-buddhist. NOT_FOUND if there is none,
 * also if the bytes are no key. */
ICU_LOCALE_TAKES((1, 6)) ICU_LOCALE_TELLS
icu_locale_status icu_locale_get_keyword(const icu_locale_t *locale, const uint8_t *key, size_t key_length,
    uint8_t *buffer, size_t room, size_t *needed) ICU_LOCALE_NOEXCEPT;

/* Sets the value of the keyword with this key; both may be in any case. The value true is the empty value. First the
 * key is judged: bytes that are no key are refused with INVALID_EXTENSION. Then the value is judged: one with another
 * subtag than 2 to 8 letters or digits is refused with INVALID_SUBTAG. Allocates only if there is another keyword, or
 * if the value has more than four subtags. */
ICU_LOCALE_TAKES((1)) ICU_LOCALE_TELLS
icu_locale_status icu_locale_set_keyword(icu_locale_t *locale, const uint8_t *key, size_t key_length,
    const uint8_t *value, size_t value_length) ICU_LOCALE_NOEXCEPT;

/* Removes the keyword with this key; NOT_FOUND if it is not there. */
ICU_LOCALE_TAKES((1)) ICU_LOCALE_TELLS
icu_locale_status icu_locale_remove_keyword(icu_locale_t *locale, const uint8_t *key, size_t key_length)
    ICU_LOCALE_NOEXCEPT;

/* Removes all keywords. */
ICU_LOCALE_TAKES((1)) ICU_LOCALE_TELLS
icu_locale_status icu_locale_clear_keywords(icu_locale_t *locale) ICU_LOCALE_NOEXCEPT;

/* Extends the extension u by that of the other handle: it then has the attributes of both, and the keywords of both.
 * At a key of both, the other handle's value wins. The other handle stays as it is. DONE or OUT_OF_MEMORY. */
ICU_LOCALE_TAKES_BOTH((1, 2)) ICU_LOCALE_TELLS
icu_locale_status icu_locale_extend_unicode(icu_locale_t *locale, const icu_locale_t *from)
    ICU_LOCALE_BOTH("icu_locale_extend_unicode_or_itself") ICU_LOCALE_NOEXCEPT;

/* Attributes of the extension u, such as foo in en-u-foo. They are read and changed as variants are. Each is 3 to 8
 * letters or digits. A text that is no attribute is refused with INVALID_EXTENSION. Adding or removing one allocates.
 */
ICU_LOCALE_TAKES((1)) ICU_LOCALE_TELLS
size_t icu_locale_attribute_count(const icu_locale_t *locale) ICU_LOCALE_NOEXCEPT;
ICU_LOCALE_TAKES((1, 5)) ICU_LOCALE_TELLS
icu_locale_status icu_locale_get_attribute(const icu_locale_t *locale, size_t index, uint8_t *buffer, size_t room,
    size_t *needed) ICU_LOCALE_NOEXCEPT;
ICU_LOCALE_TAKES((1)) ICU_LOCALE_TELLS
bool icu_locale_has_attribute(const icu_locale_t *locale, const uint8_t *text, size_t length) ICU_LOCALE_NOEXCEPT;
ICU_LOCALE_TAKES((1)) ICU_LOCALE_TELLS
icu_locale_status icu_locale_add_attribute(icu_locale_t *locale, const uint8_t *text, size_t length)
    ICU_LOCALE_NOEXCEPT;
ICU_LOCALE_TAKES((1)) ICU_LOCALE_TELLS
icu_locale_status icu_locale_remove_attribute(icu_locale_t *locale, const uint8_t *text, size_t length)
    ICU_LOCALE_NOEXCEPT;
ICU_LOCALE_TAKES((1)) ICU_LOCALE_TELLS
icu_locale_status icu_locale_clear_attributes(icu_locale_t *locale) ICU_LOCALE_NOEXCEPT;

/* The identifier of the extension t, which begins with a language: de-latn of en-t-de-latn, written as de-Latn.
 * NOT_FOUND if there is none. Setting an empty text removes it. A text that is no identifier is refused as by
 * icu_locale_check for an identifier. Setting allocates only if there are more than four variants. */
ICU_LOCALE_TAKES((1, 4)) ICU_LOCALE_TELLS
icu_locale_status icu_locale_get_transform_language(const icu_locale_t *locale, uint8_t *buffer, size_t room,
    size_t *needed) ICU_LOCALE_NOEXCEPT;
ICU_LOCALE_TAKES((1)) ICU_LOCALE_TELLS
icu_locale_status icu_locale_set_transform_language(icu_locale_t *locale, const uint8_t *text, size_t length)
    ICU_LOCALE_NOEXCEPT;

/* Fields of the extension t, such as m0-din in en-t-m0-din, by ascending key. They are read and changed as keywords
 * are, but an empty value is written as true. A key is a letter and a digit. Bytes that are no key are refused with
 * INVALID_EXTENSION. So is a value that is empty or has another subtag than 3 to 8 letters or digits. Setting allocates
 * only if the field is not there, or if the value has more than four subtags. */
ICU_LOCALE_TAKES((1)) ICU_LOCALE_TELLS
size_t icu_locale_field_count(const icu_locale_t *locale) ICU_LOCALE_NOEXCEPT;
ICU_LOCALE_TAKES((1, 5)) ICU_LOCALE_TELLS
icu_locale_status icu_locale_get_field_key(const icu_locale_t *locale, size_t index, uint8_t *buffer, size_t room,
    size_t *needed) ICU_LOCALE_NOEXCEPT;
ICU_LOCALE_TAKES((1, 5)) ICU_LOCALE_TELLS
icu_locale_status icu_locale_get_field_value(const icu_locale_t *locale, size_t index, uint8_t *buffer, size_t room,
    size_t *needed) ICU_LOCALE_NOEXCEPT;
ICU_LOCALE_TAKES((1, 6)) ICU_LOCALE_TELLS
icu_locale_status icu_locale_get_field(const icu_locale_t *locale, const uint8_t *key, size_t key_length,
    uint8_t *buffer, size_t room, size_t *needed) ICU_LOCALE_NOEXCEPT;
ICU_LOCALE_TAKES((1)) ICU_LOCALE_TELLS
icu_locale_status icu_locale_set_field(icu_locale_t *locale, const uint8_t *key, size_t key_length,
    const uint8_t *value, size_t value_length) ICU_LOCALE_NOEXCEPT;

/* Removes the field with this key, in any case; NOT_FOUND if it is not there, also if the bytes are no key. */
ICU_LOCALE_TAKES((1)) ICU_LOCALE_TELLS
icu_locale_status icu_locale_remove_field(icu_locale_t *locale, const uint8_t *key, size_t key_length)
    ICU_LOCALE_NOEXCEPT;

/* Removes all fields. */
ICU_LOCALE_TAKES((1)) ICU_LOCALE_TELLS
icu_locale_status icu_locale_clear_fields(icu_locale_t *locale) ICU_LOCALE_NOEXCEPT;

/* The private extension with its x: x-a-b of en-x-a-b. It is an empty text if there is none. Setting an empty text
 * removes it. Any other text than x and subtags of 1 to 8 letters or digits is refused with INVALID_EXTENSION. Setting
 * allocates only if there are more than four subtags. */
ICU_LOCALE_TAKES((1, 4)) ICU_LOCALE_TELLS
icu_locale_status icu_locale_get_private(const icu_locale_t *locale, uint8_t *buffer, size_t room, size_t *needed)
    ICU_LOCALE_NOEXCEPT;
ICU_LOCALE_TAKES((1)) ICU_LOCALE_TELLS
icu_locale_status icu_locale_set_private(icu_locale_t *locale, const uint8_t *text, size_t length) ICU_LOCALE_NOEXCEPT;

/* Other extensions, such as a-foo-bar of en-a-foo-bar, by their singleton: a letter or digit other than t, u and x, in
 * either case. The calls tell whether there is one, and its text with the singleton, or NOT_FOUND. */
ICU_LOCALE_TAKES((1)) ICU_LOCALE_TELLS
bool icu_locale_has_other(const icu_locale_t *locale, uint8_t singleton) ICU_LOCALE_NOEXCEPT;
ICU_LOCALE_TAKES((1, 5)) ICU_LOCALE_TELLS
icu_locale_status icu_locale_get_other(const icu_locale_t *locale, uint8_t singleton, uint8_t *buffer, size_t room,
    size_t *needed) ICU_LOCALE_NOEXCEPT;

/* Sets the extension of a singleton to the text, which is the singleton and its subtags, in any case: A-Foo-bar sets
 * a-foo-bar. The text is parsed as within a locale: pieces of 2 to 8 bytes follow the singleton. Pieces with other
 * bytes than letters and digits are left out, and at least one piece must stay. Any other text is refused with
 * INVALID_EXTENSION, also one that is empty or has two extensions. Allocates. */
ICU_LOCALE_TAKES((1)) ICU_LOCALE_TELLS
icu_locale_status icu_locale_set_other(icu_locale_t *locale, const uint8_t *text, size_t length) ICU_LOCALE_NOEXCEPT;

/* Removes the extension of a singleton; NOT_FOUND if it is not there. */
ICU_LOCALE_TAKES((1)) ICU_LOCALE_TELLS
icu_locale_status icu_locale_remove_other(icu_locale_t *locale, uint8_t singleton) ICU_LOCALE_NOEXCEPT;

/* The data locale of a locale, by which data is looked up: language, script, region or subdivision, and the first
 * variant. en-GB-u-rg-uszzzz is en-GB by language and en-US by region.
 *
 * The first call writes its text. The other two write -1, 0 or 1 to *order. icu_locale_data_cmp_bytes writes the byte
 * order of the text against other bytes, which are not normalized. icu_locale_data_cmp writes the order of the data
 * locales of two handles by their parts, which is 0 exactly if both are equal. A number that is no priority is refused
 * with UNKNOWN_NUMBER: *needed is then 0, and the buffer or *order is as before. None allocates. */
ICU_LOCALE_TAKES((1, 5)) ICU_LOCALE_TELLS
icu_locale_status icu_locale_get_data_locale(const icu_locale_t *locale, icu_locale_priority priority, uint8_t *buffer,
    size_t room, size_t *needed) ICU_LOCALE_NOEXCEPT;
ICU_LOCALE_TAKES((1, 5)) ICU_LOCALE_TELLS
icu_locale_status icu_locale_data_cmp_bytes(const icu_locale_t *locale, icu_locale_priority priority,
    const uint8_t *other, size_t length, int8_t *order) ICU_LOCALE_NOEXCEPT;
ICU_LOCALE_TAKES((1, 2, 4)) ICU_LOCALE_TELLS
icu_locale_status icu_locale_data_cmp(const icu_locale_t *locale, const icu_locale_t *other,
    icu_locale_priority priority, int8_t *order) ICU_LOCALE_NOEXCEPT;

/* What formatters take from a locale: the calendar of the keyword ca, the hour cycle of hc and the numbering system
 * of nu. The text is that of the value which the keyword stands for: islamic-civil of ca-islamicc. ca takes a calendar
 * of UTS #35; hc takes h12, h23, h11, c12 or c24; nu takes one subtag. NOT_FOUND if the keyword is absent, or if its
 * value is none of these. */
ICU_LOCALE_TAKES((1, 4)) ICU_LOCALE_TELLS
icu_locale_status icu_locale_get_calendar_algorithm(const icu_locale_t *locale, uint8_t *buffer, size_t room,
    size_t *needed) ICU_LOCALE_NOEXCEPT;
ICU_LOCALE_TAKES((1, 4)) ICU_LOCALE_TELLS
icu_locale_status icu_locale_get_hour_cycle(const icu_locale_t *locale, uint8_t *buffer, size_t room, size_t *needed)
    ICU_LOCALE_NOEXCEPT;
ICU_LOCALE_TAKES((1, 4)) ICU_LOCALE_TELLS
icu_locale_status icu_locale_get_numbering_system(const icu_locale_t *locale, uint8_t *buffer, size_t room,
    size_t *needed) ICU_LOCALE_NOEXCEPT;

/* ICU_LOCALE_VERSION of the header that the library was made for. */
extern uint32_t icu_locale_version(void) ICU_LOCALE_NOEXCEPT;

#if defined(__GNUC__)
/* The two calls that change one handle by another, where both may be one. The library has the first alone, so it wants
 * two. These functions, which are not proved, answer for one handle, and else ask the function of the library that has
 * the name after __asm__. */
extern icu_locale_status icu_locale_two_copy(icu_locale_t *, const icu_locale_t *) ICU_LOCALE_NAMED("icu_locale_copy");
extern icu_locale_status icu_locale_two_extend(icu_locale_t *, const icu_locale_t *)
    ICU_LOCALE_NAMED("icu_locale_extend_unicode");

ICU_LOCALE_TAKES_BOTH((1, 2))
icu_locale_status icu_locale_copy(icu_locale_t *locale, const icu_locale_t *from) ICU_LOCALE_INLINE
{
    if (locale == from)
        return ICU_LOCALE_DONE;
    return icu_locale_two_copy(locale, from);
}

ICU_LOCALE_TAKES_BOTH((1, 2))
icu_locale_status icu_locale_extend_unicode(icu_locale_t *locale, const icu_locale_t *from) ICU_LOCALE_INLINE
{
    if (locale == from)
        return ICU_LOCALE_DONE;
    return icu_locale_two_extend(locale, from);
}
#endif

#ifdef __cplusplus
}
#endif

#endif
