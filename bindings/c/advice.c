/* What icu_locale_expected and icu_locale_hint say of texts, and their words, for tools/try_bindings. The last line is the
 * number of cases; the first that is not as wanted ends the program. */
#include "icu_locale.h"
#include "wanted.h"

#include <stdio.h>
#include <stdlib.h>
#include <string.h>

#define UNTOUCHED 77
#define KIND(name) ICU_LOCALE_KIND_##name
#define TEXT(it) (const uint8_t *)(it), strlen(it)

enum { NO_KINDS = 8192, NEXT = KIND(SCRIPT) | KIND(REGION) | KIND(VARIANT) | KIND(SINGLETON) | KIND(END) };

struct expected {
    const char *text;
    size_t place; /* where its fault stands, or its length */
    icu_locale_kinds wanted;
    const char *words;
};

/* By UTS #35, sections 3.1 and 3.2: what an identifier, u, t, x and another extension have. */
static const struct expected in_locales[] = {
    {"", 0, KIND(LANGUAGE), "a language"},
    {"en_US", 0, KIND(LANGUAGE), "a language"},
    {"en", 2, NEXT, "a script, a region, a variant or an extension"},
    {"en-foo", 3, NEXT, "a script, a region, a variant or an extension"},
    {"en-Latn-!", 8, NEXT - KIND(SCRIPT), "a region, a variant or an extension"},
    {"en-US-toolonggg", 6, KIND(VARIANT) | KIND(SINGLETON) | KIND(END), "a variant or an extension"},
    {"en-US-posix-posix", 12, KIND(VARIANT) | KIND(SINGLETON) | KIND(END), "a variant or an extension"},
    {"en-u", 4, KIND(ATTRIBUTE) | KIND(KEY), "an attribute or a key"},
    {"en-u-foo-!", 9, KIND(SINGLETON) | KIND(ATTRIBUTE) | KIND(KEY) | KIND(END), "an extension, an attribute or a key"},
    {"en-u-ca-!", 8, KIND(SINGLETON) | KIND(KEY) | KIND(VALUE) | KIND(END), "an extension, a key or a value"},
    {"en-t-!", 5, KIND(LANGUAGE) | KIND(FIELD), "a language or a key of a field"},
    {"en-t-de-!", 8, NEXT | KIND(FIELD), "a script, a region, a variant, an extension or a key of a field"},
    {"en-t-m0-!", 8, KIND(FIELD_VALUE), "a value of a field"},
    {"en-t-m0-din-!", 12, KIND(SINGLETON) | KIND(FIELD) | KIND(FIELD_VALUE) | KIND(END),
        "an extension, a key of a field or a value of a field"},
    {"en-a", 4, KIND(OTHER), "a subtag of the extension"},
    {"en-a-foo-!", 9, KIND(SINGLETON) | KIND(OTHER) | KIND(END), "an extension or a subtag of the extension"},
    {"en-x-!", 5, KIND(PRIVATE), "a private subtag"},
    {"en-x-a-!", 7, KIND(PRIVATE) | KIND(END), "a private subtag"},
};

static const struct expected in_identifiers[] = {
    {"", 0, KIND(LANGUAGE), "a language"},
    {"en-Latn-u-ca", 8, KIND(REGION) | KIND(VARIANT) | KIND(END), "a region or a variant"},
    {"en-US-u", 6, KIND(VARIANT) | KIND(END), "a variant"},
};

/* A data locale has one variant, and of the extensions sd alone (docs/DEFINITIONS.md). */
static const struct expected in_data_locales[] = {
    {"", 0, KIND(LANGUAGE), "a language"},
    {"en-US-!", 6, KIND(VARIANT) | KIND(SINGLETON) | KIND(END), "a variant or an extension"},
    {"en-posix-macos", 9, KIND(SINGLETON) | KIND(END), "an extension"},
    {"en-u", 4, KIND(KEY), "a key"},
};

/* The words are these, in a buffer that just fits; in one that is a byte too small nothing is written. */
static void look_at_words(icu_locale_status (*call)(uint32_t, uint8_t *, size_t, size_t *), uint32_t number, const char *words)
{
    uint8_t buffer[192];
    size_t needed = UNTOUCHED, length = strlen(words);
    memset(buffer, UNTOUCHED, sizeof buffer);
    WANT(call(number, buffer, length - 1, &needed) == ICU_LOCALE_BUFFER_TOO_SMALL);
    WANT(needed == length && buffer[0] == UNTOUCHED);
    WANT(call(number, buffer, length, &needed) == ICU_LOCALE_DONE);
    WANT(needed == length && memcmp(buffer, words, length) == 0 && buffer[length] == UNTOUCHED);
}

static void look_at_none(icu_locale_status (*call)(uint32_t, uint8_t *, size_t, size_t *), uint32_t number)
{
    uint8_t buffer[192] = {UNTOUCHED};
    size_t needed = UNTOUCHED;
    WANT(call(number, buffer, sizeof buffer, &needed) == ICU_LOCALE_UNKNOWN_NUMBER);
    WANT(needed == 0 && buffer[0] == UNTOUCHED);
}

static void look_at_expected(icu_locale_mode mode, const struct expected *it)
{
    icu_locale_kinds kinds = UNTOUCHED;
    size_t start = strlen(it->text), end;
    WANT(icu_locale_expected(mode, TEXT(it->text), it->place, &kinds) == ICU_LOCALE_DONE && kinds == it->wanted);
    (void)!icu_locale_find_fault(mode, TEXT(it->text), &start, &end);
    WANT(start == it->place);
    /* What follows the place does not count, and a place behind the end is the end. */
    kinds = UNTOUCHED;
    WANT(icu_locale_expected(mode, (const uint8_t *)it->text, it->place, SIZE_MAX, &kinds) == ICU_LOCALE_DONE);
    WANT(kinds == it->wanted);
    look_at_words(icu_locale_expected_words, kinds, it->words);
}

static void try_expected(void)
{
    for (size_t at = 0; at < sizeof in_locales / sizeof *in_locales; at++)
        look_at_expected(ICU_LOCALE_LOCALE, &in_locales[at]);
    for (size_t at = 0; at < sizeof in_identifiers / sizeof *in_identifiers; at++)
        look_at_expected(ICU_LOCALE_IDENTIFIER, &in_identifiers[at]);
    for (size_t at = 0; at < sizeof in_data_locales / sizeof *in_data_locales; at++)
        look_at_expected(ICU_LOCALE_DATA_LOCALE, &in_data_locales[at]);
}

/* Each kind has its words, and the end is named alone. Any other bit has none. */
static void try_words(void)
{
    static const char *const words[] = {"a language", "a script", "a region", "a variant", "an extension", "an attribute",
        "a key", "a value", "a key of a field", "a subtag of the extension", "a private subtag", "a value of a field", "the end"};
    for (unsigned at = 0; at < 13; at++) {
        look_at_words(icu_locale_expected_words, 1u << at, words[at]);
        look_at_words(icu_locale_expected_words, 1u << at | KIND(END), words[at]);
    }
    look_at_words(icu_locale_expected_words, 0, "nothing");
    uint8_t buffer[192];
    size_t needed = UNTOUCHED;
    WANT(icu_locale_expected_words(NO_KINDS - 1, buffer, sizeof buffer, &needed) == ICU_LOCALE_DONE);
    for (unsigned at = 13; at < 32; at++)
        look_at_none(icu_locale_expected_words, 1u << at);
    look_at_none(icu_locale_expected_words, NO_KINDS | KIND(END));
    look_at_none(icu_locale_expected_words, UINT32_MAX);
}

static void look_at_hint(icu_locale_mode mode, const char *text, icu_locale_hint_number wanted)
{
    icu_locale_hint_number hint = UNTOUCHED;
    WANT(icu_locale_hint(mode, TEXT(text), &hint) == ICU_LOCALE_DONE && hint == wanted);
}

static void try_hints(void)
{
    static const char *const words[] = {"leave out the byte order mark", "leave out the blanks",
        "use und, since this name has no language",
        "leave out the codeset and the modifier, and use hyphens in place of underscores",
        "use hyphens in place of underscores"};
    for (icu_locale_mode mode = ICU_LOCALE_IDENTIFIER; mode <= ICU_LOCALE_DATA_LOCALE; mode++) {
        look_at_hint(mode, "\xef\xbb\xbf""en", ICU_LOCALE_HINT_MARK);
        look_at_hint(mode, "en-US\r", ICU_LOCALE_HINT_BLANKS);
        look_at_hint(mode, "C", ICU_LOCALE_HINT_SYSTEM);
        look_at_hint(mode, "root", ICU_LOCALE_HINT_SYSTEM);
        look_at_hint(mode, "POSIX", ICU_LOCALE_NO_HINT); /* it is accepted, as a language of five letters */
        look_at_hint(mode, "C.UTF-8", ICU_LOCALE_HINT_SYSTEM);
        look_at_hint(mode, "de_DE.UTF-8", ICU_LOCALE_HINT_CODESET);
        look_at_hint(mode, "en_US", ICU_LOCALE_HINT_UNDERSCORES);
        look_at_hint(mode, "en_!", ICU_LOCALE_NO_HINT);
        look_at_hint(mode, "en-!", ICU_LOCALE_NO_HINT);
        look_at_hint(mode, "en-US", ICU_LOCALE_NO_HINT);
        look_at_hint(mode, "", ICU_LOCALE_NO_HINT);
    }
    look_at_hint(ICU_LOCALE_LOCALE, "en_u_ca_roc", ICU_LOCALE_HINT_UNDERSCORES);
    look_at_hint(ICU_LOCALE_IDENTIFIER, "en_u_ca_roc", ICU_LOCALE_NO_HINT);
    for (uint32_t number = ICU_LOCALE_HINT_MARK; number <= ICU_LOCALE_HINT_UNDERSCORES; number++)
        look_at_words(icu_locale_hint_words, number, words[number - 1]);
    look_at_none(icu_locale_hint_words, ICU_LOCALE_NO_HINT);
    look_at_none(icu_locale_hint_words, ICU_LOCALE_HINT_UNDERSCORES + 1);
    look_at_none(icu_locale_hint_words, UINT32_MAX);
}

static void try_unknown_modes(void)
{
    static const icu_locale_mode numbers[] = {3, 7, 256, UINT32_MAX};
    for (size_t at = 0; at < sizeof numbers / sizeof *numbers; at++) {
        uint32_t number = UNTOUCHED;
        WANT(icu_locale_expected(numbers[at], TEXT("en"), 0, &number) == ICU_LOCALE_UNKNOWN_NUMBER && number == UNTOUCHED);
        WANT(icu_locale_hint(numbers[at], TEXT("en_US"), &number) == ICU_LOCALE_UNKNOWN_NUMBER && number == UNTOUCHED);
    }
}

int main(void)
{
    try_expected();
    try_words();
    try_hints();
    try_unknown_modes();
    printf("%lu\n", cases);
    return 0;
}
