/* Tries the calls on locales that a program holds. It makes no allocation itself.
 *
 *     handles parts              each call in known cases: what it gives, each refusal, and that a refusal changes nothing
 *     handles refused            each call with each of its allocations refused in turn (built with REFUSING, and linked with
 *                                --wrap=malloc,--wrap=realloc,--wrap=free)
 *
 * The last line is the number of cases. The first that is not as wanted ends the program. */
#include "icu_locale.h"
#include "wanted.h"

#include <stdio.h>
#include <stdlib.h>
#include <string.h>

#define ROOM 512

static const uint8_t *bytes(const char *text)
{
    return (const uint8_t *)text;
}

/* Texts of a C string. */
#define TEXT(it) bytes(it), strlen(it)

static char last[ROOM];
static size_t needed;

/* What a call that reads is given to write to. */
#define ROOM_FOR_PART (needed = 77, (uint8_t *)last), ROOM - 1, &needed

/* What a call that reads wrote, as a C string; "?" if there is no such part. */
static const char *ended(icu_locale_status status)
{
    WANT(needed < ROOM);
    last[needed] = 0;
    if (status == ICU_LOCALE_NOT_FOUND) {
        WANT(needed == 0);
        return "?";
    }
    WANT(status == ICU_LOCALE_DONE);
    return last;
}

typedef icu_locale_status (*reading)(const icu_locale_t *, uint8_t *, size_t, size_t *);

/* It tries a buffer that is too small too. */
static const char *read_part(icu_locale_t *locale, reading call)
{
    uint8_t small[ROOM];
    icu_locale_status status = call(locale, ROOM_FOR_PART);
    const char *text = ended(status);
    if (needed > 0) {
        size_t again = 77;
        memset(small, '#', sizeof small);
        WANT(call(locale, small, needed - 1, &again) == ICU_LOCALE_BUFFER_TOO_SMALL && again == needed);
        for (size_t i = 0; i < sizeof small; i++)
            WANT(small[i] == '#');
        WANT(call(locale, small, needed, &again) == ICU_LOCALE_DONE && again == needed);
        WANT(memcmp(small, last, needed) == 0 && small[needed] == '#');
    } else {
        size_t again = 77;
        WANT(call(locale, NULL, 0, &again) == status && again == 0);
    }
    return text;
}

typedef icu_locale_status (*reading_at)(const icu_locale_t *, size_t, uint8_t *, size_t, size_t *);

static const char *read_at(icu_locale_t *locale, reading_at call, size_t index)
{
    return ended(call(locale, index, ROOM_FOR_PART));
}

static const char *keyword(icu_locale_t *locale, const char *key)
{
    return ended(icu_locale_get_keyword(locale, TEXT(key), ROOM_FOR_PART));
}

static int is_now(icu_locale_t *locale, const char *text)
{
    const char *now = read_part(locale, icu_locale_to_string);
    if (strcmp(now, text) != 0)
        fprintf(stderr, "%s, and not %s\n", now, text);
    return strcmp(now, text) == 0;
}

/* Copies a text, which fits. */
static void put(char *to, size_t room, const char *from)
{
    size_t length = strlen(from);
    WANT(length < room);
    memcpy(to, from, length + 1);
}

#define PARSES(locale, text) WANT(icu_locale_parse(locale, TEXT(text)) == ICU_LOCALE_DONE)

/* FNV-1a, written from its description. */
static uint64_t fnv(const char *text)
{
    uint64_t hash = UINT64_C(0xcbf29ce484222325);
    for (; *text; text++)
        hash = (hash ^ (uint8_t)*text) * UINT64_C(0x100000001b3);
    return hash;
}

/* The normal form of a text as a locale or an identifier; NULL if it has none. */
static const char *normal_of(icu_locale_mode mode, const char *text)
{
    static char normal[ROOM];
    size_t needed;
    icu_locale_status status = icu_locale_normalize(mode, TEXT(text), (uint8_t *)normal, ROOM - 1, &needed);
    if (status != ICU_LOCALE_DONE)
        return NULL;
    normal[needed] = 0;
    return normal;
}

typedef icu_locale_status (*part_of)(icu_locale_mode, const uint8_t *, size_t, uint8_t *, size_t, size_t *);

/* What a call that takes a text gives, as a C string; "?" if there is no such part. It tries a buffer that is too small
 * too. */
static const char *of_text(part_of call, icu_locale_mode mode, const char *text)
{
    uint8_t small[ROOM];
    icu_locale_status status = call(mode, TEXT(text), ROOM_FOR_PART);
    const char *part = ended(status);
    size_t again = 77, length = needed;
    if (length == 0) {
        WANT(call(mode, TEXT(text), NULL, 0, &again) == status && again == 0);
        return part;
    }
    memset(small, '#', sizeof small);
    WANT(call(mode, TEXT(text), small, length - 1, &again) == ICU_LOCALE_BUFFER_TOO_SMALL && again == length);
    for (size_t i = 0; i < sizeof small; i++)
        WANT(small[i] == '#');
    WANT(call(mode, TEXT(text), small, length, &again) == ICU_LOCALE_DONE && again == length);
    WANT(memcmp(small, last, length) == 0 && small[length] == '#');
    return part;
}

static const char *keyword_of_text(icu_locale_mode mode, const char *text, const char *key)
{
    return ended(icu_locale_keyword_of(mode, TEXT(text), TEXT(key), ROOM_FOR_PART));
}

/* Known cases. */

#define IS(call, text, part) WANT(strcmp(of_text(call, ICU_LOCALE_LOCALE, text), part) == 0)
#define IS_IN(mode, call, text, part) WANT(strcmp(of_text(call, mode, text), part) == 0)

/* Each call that takes a text and gives a part refuses the text so, in the mode. */
static void is_refused_in(icu_locale_mode mode, const char *text, icu_locale_status status)
{
    static const part_of calls[] = {icu_locale_base_name_of, icu_locale_language_of, icu_locale_script_of,
        icu_locale_region_of, icu_locale_variants_of, icu_locale_parent};
    for (size_t i = 0; i < sizeof calls / sizeof *calls; i++)
        WANT(calls[i](mode, TEXT(text), ROOM_FOR_PART) == status && needed == 0);
    WANT(icu_locale_keyword_of(mode, TEXT(text), TEXT("ca"), ROOM_FOR_PART) == status && needed == 0);
}

/* The order of variants and keywords is that of UTS #35, section 3.2.1. */
static void try_parts_of_texts(void)
{
    const char *all = "SR-latn-RS-posix-1994-T-de-m0-din-U-attr-nu-LATN-ca-islamic-Civil-kn-a-foo-x-u-ca-roc";
    IS(icu_locale_base_name_of, all, "sr-Latn-RS-1994-posix");
    IS(icu_locale_language_of, all, "sr");
    IS(icu_locale_script_of, all, "Latn");
    IS(icu_locale_region_of, all, "RS");
    IS(icu_locale_variants_of, all, "1994-posix");
    IS(icu_locale_parent, all, "sr-Latn-RS-1994-posix");
    WANT(strcmp(keyword_of_text(ICU_LOCALE_LOCALE, all, "CA"), "islamic-civil") == 0);
    WANT(strcmp(keyword_of_text(ICU_LOCALE_LOCALE, all, "nu"), "latn") == 0);
    WANT(strcmp(keyword_of_text(ICU_LOCALE_LOCALE, all, "kn"), "") == 0);
    WANT(strcmp(keyword_of_text(ICU_LOCALE_LOCALE, all, "m0"), "?") == 0);
    WANT(strcmp(keyword_of_text(ICU_LOCALE_LOCALE, all, "attr"), "?") == 0);
    WANT(strcmp(keyword_of_text(ICU_LOCALE_LOCALE, "en-x-u-ca-roc", "ca"), "?") == 0);
    WANT(strcmp(keyword_of_text(ICU_LOCALE_LOCALE, "en-a-ca-roc", "ca"), "?") == 0);
    WANT(strcmp(keyword_of_text(ICU_LOCALE_LOCALE, "en-u-ca-roc-ca-iso8601", "ca"), "roc") == 0);
    IS(icu_locale_parent, "sr-Latn-RS-1994-posix", "sr-Latn-RS-1994");
    IS(icu_locale_parent, "sr-latn-RS-1994", "sr-Latn-RS");
    IS(icu_locale_parent, "sr-latn-rs", "sr-Latn");
    IS(icu_locale_parent, "SR-latn", "sr");
    IS(icu_locale_parent, "SR", "und");
    IS(icu_locale_parent, "UND", "?");
    IS(icu_locale_parent, "und-u-ca-roc", "und");
    IS(icu_locale_parent, "und-x-a", "und");
    IS(icu_locale_script_of, "es-419", "");
    IS(icu_locale_region_of, "es-419", "419");
    IS(icu_locale_variants_of, "de-1996", "1996");
    IS(icu_locale_region_of, "de-1996", "");
    IS(icu_locale_script_of, "de-1996", "");
    IS(icu_locale_variants_of, "es-419", "");
}

static void try_modes_of_texts(void)
{
    IS_IN(ICU_LOCALE_IDENTIFIER, icu_locale_region_of, "ZH-hant-tw", "TW");
    IS_IN(ICU_LOCALE_DATA_LOCALE, icu_locale_region_of, "und-u-sd-gbeng", "GB");
    IS_IN(ICU_LOCALE_DATA_LOCALE, icu_locale_parent, "und-u-sd-gbeng", "und-GB");
    WANT(strcmp(keyword_of_text(ICU_LOCALE_DATA_LOCALE, "und-GB-u-sd-gbeng", "SD"), "gbeng") == 0);
    is_refused_in(ICU_LOCALE_IDENTIFIER, "en-u-ca-roc", ICU_LOCALE_INVALID_SUBTAG);
    is_refused_in(ICU_LOCALE_LOCALE, "e", ICU_LOCALE_INVALID_LANGUAGE);
    is_refused_in(ICU_LOCALE_LOCALE, "en-u", ICU_LOCALE_INVALID_EXTENSION);
    is_refused_in(ICU_LOCALE_LOCALE, "en-a-bb-a-cc", ICU_LOCALE_DUPLICATED_EXTENSION);
    is_refused_in(ICU_LOCALE_DATA_LOCALE, "en-u-ca-roc", ICU_LOCALE_INVALID_EXTENSION);
    is_refused_in(3, "en", ICU_LOCALE_UNKNOWN_NUMBER);
    is_refused_in(257, "en", ICU_LOCALE_UNKNOWN_NUMBER);
}

/* A text with more pieces, and more bytes, than are looked at without memory. */
static void try_long_texts(void)
{
    char text[ROOM] = "EN-us-u-nu-LATN-ca-roc";
    for (int i = 0; i < 70; i++)
        strcat(text, "-a1b");
    IS(icu_locale_language_of, text, "en");
    IS(icu_locale_region_of, text, "US");
    IS(icu_locale_base_name_of, text, "en-US");
    IS(icu_locale_parent, text, "en-US");
    WANT(strcmp(keyword_of_text(ICU_LOCALE_LOCALE, text, "nu"), "latn") == 0);
    strcat(text, "-");
    is_refused_in(ICU_LOCALE_LOCALE, text, ICU_LOCALE_INVALID_EXTENSION);
    IS_IN(ICU_LOCALE_DATA_LOCALE, icu_locale_language_of, "EN-u-sd-gbeng-true-true-true-true-true-true-true-true-true", "en");
    IS_IN(ICU_LOCALE_DATA_LOCALE, icu_locale_region_of, "EN-u-sd-gbeng-true-true-true-true-true-true-true-true-true", "GB");
}

static int does_match(const char *text, const char *range)
{
    uint8_t same = 9;
    WANT(icu_locale_matches(TEXT(text), TEXT(range), &same) == ICU_LOCALE_DONE && same <= 1);
    return same;
}

static int is_cleaned(const char *name, const char *cleaned)
{
    return strcmp(ended(icu_locale_clean(TEXT(name), ROOM_FOR_PART)), cleaned) == 0;
}

/* The first range is that of RFC 4647, section 3.3.2, with its tags. */
static void try_ranges(void)
{
    static const char *const yes[] = {"de-DE", "de-de", "de-Latn-DE", "de-Latf-DE", "de-DE-x-goethe", "de-Latn-DE-1996",
        "de-Deva-DE"};
    static const char *const no[] = {"de", "de-x-DE", "de-Deva"};
    uint8_t same = 9;
    for (size_t i = 0; i < sizeof yes / sizeof *yes; i++)
        WANT(does_match(yes[i], "DE-de"));
    for (size_t i = 0; i < sizeof no / sizeof *no; i++)
        WANT(!does_match(no[i], "de-DE"));
    WANT(does_match("zh-hant-TW", "und-tw") && does_match("en", "und") && !does_match("en-x-us", "en-US"));
    WANT(icu_locale_matches(TEXT("en-"), TEXT("e"), &same) == ICU_LOCALE_INVALID_SUBTAG && same == 9);
    WANT(icu_locale_matches(TEXT("en"), TEXT("en-u"), &same) == ICU_LOCALE_INVALID_EXTENSION && same == 9);
    WANT(is_cleaned(" en_US.UTF-8\r", "en-US") && is_cleaned("sr_RS.UTF-8@latin", "sr-Latn-RS"));
    WANT(is_cleaned("ca_ES@valencia", "ca-ES-valencia") && is_cleaned("de_DE@euro", "de-DE"));
    WANT(is_cleaned("de_DE@phonebook", "de-DE@phonebook") && is_cleaned("C.UTF-8", "C") && is_cleaned("", ""));
    WANT(icu_locale_clean(TEXT("en_US"), (uint8_t *)last, 4, &needed) == ICU_LOCALE_BUFFER_TOO_SMALL && needed == 5);
}

static void try_und(void)
{
    icu_locale_t und = ICU_LOCALE_UND, other = ICU_LOCALE_UND;
    WANT(icu_locale_is_und(&und) && icu_locale_is_well_formed(&und) && is_now(&und, "und"));
    WANT(strcmp(read_part(&und, icu_locale_get_base_name), "und") == 0);
    WANT(strcmp(read_part(&und, icu_locale_get_language), "und") == 0);
    WANT(strcmp(read_part(&und, icu_locale_get_script), "") == 0);
    WANT(strcmp(read_part(&und, icu_locale_get_region), "") == 0);
    WANT(icu_locale_variant_count(&und) == 0 && icu_locale_keyword_count(&und) == 0);
    WANT(strcmp(read_at(&und, icu_locale_get_variant, 0), "?") == 0 && strcmp(keyword(&und, "ca"), "?") == 0);
    WANT(icu_locale_eq(&und, &other) && icu_locale_cmp(&und, &other) == 0);
    WANT(icu_locale_cmp_bytes(&und, TEXT("und")) == 0 && icu_locale_hash(&und) == fnv("und"));
    WANT(icu_locale_copy(&und, &other) == ICU_LOCALE_DONE && und.at == NULL && other.at == NULL);
    WANT(icu_locale_remove_variant(&und, TEXT("posix")) == ICU_LOCALE_NOT_FOUND && und.at == NULL);
    WANT(icu_locale_set_region(&und, TEXT("USA")) == ICU_LOCALE_INVALID_SUBTAG && und.at == NULL);
    WANT(icu_locale_parse(&und, TEXT("en-")) == ICU_LOCALE_INVALID_SUBTAG && und.at == NULL);
    PARSES(&und, "UND");
    WANT(und.at == NULL);
    icu_locale_free(&und);
    icu_locale_free(&und);
    WANT(und.at == NULL);
}

static void try_whole(void)
{
    icu_locale_t locale = ICU_LOCALE_UND, other = ICU_LOCALE_UND;
    uint8_t same = 9;
    PARSES(&locale, "EN-latn-us-POSIX-u-CA-Buddhist-x-A");
    WANT(is_now(&locale, "en-Latn-US-posix-u-ca-buddhist-x-a") && !icu_locale_is_und(&locale));
    WANT(icu_locale_parse(&locale, TEXT("e")) == ICU_LOCALE_INVALID_LANGUAGE);
    WANT(icu_locale_parse(&locale, TEXT("en-us-u")) == ICU_LOCALE_INVALID_EXTENSION);
    WANT(icu_locale_parse(&locale, TEXT("en-a-bb-a-cc")) == ICU_LOCALE_DUPLICATED_EXTENSION);
    WANT(icu_locale_parse(&locale, NULL, 0) == ICU_LOCALE_INVALID_LANGUAGE);
    WANT(is_now(&locale, "en-Latn-US-posix-u-ca-buddhist-x-a"));
    WANT(strcmp(read_part(&locale, icu_locale_get_base_name), "en-Latn-US-posix") == 0);
    WANT(icu_locale_copy(&other, &locale) == ICU_LOCALE_DONE && icu_locale_eq(&locale, &other));
    WANT(icu_locale_hash(&locale) == icu_locale_hash(&other) && icu_locale_cmp(&locale, &other) == 0);
    WANT(icu_locale_set_region(&other, TEXT("gb")) == ICU_LOCALE_DONE && !icu_locale_eq(&locale, &other));
    WANT(icu_locale_cmp(&locale, &other) == 1 && icu_locale_cmp(&other, &locale) == -1);
    WANT(is_now(&locale, "en-Latn-US-posix-u-ca-buddhist-x-a"));
    WANT(icu_locale_cmp_bytes(&other, TEXT("en-Latn-GB-posix-u-ca-buddhist-x-a")) == 0);
    WANT(icu_locale_cmp_bytes(&other, TEXT("en-Latn-GB")) == 1 && icu_locale_cmp_bytes(&other, TEXT("f")) == -1);
    WANT(icu_locale_cmp_bytes(&other, NULL, 0) == 1);
    WANT(icu_locale_eq_text(&other, TEXT("EN-latn-gb-posix-u-ca-buddhist-x-a"), &same) == ICU_LOCALE_DONE && same == 1);
    WANT(icu_locale_eq_text(&other, TEXT("en"), &same) == ICU_LOCALE_DONE && same == 0);
    WANT(icu_locale_eq_text(&other, TEXT("e"), &same) == ICU_LOCALE_DONE && same == 0);
    WANT(icu_locale_copy(&locale, &other) == ICU_LOCALE_DONE && is_now(&locale, "en-Latn-GB-posix-u-ca-buddhist-x-a"));
    icu_locale_free(&other);
    WANT(icu_locale_copy(&locale, &other) == ICU_LOCALE_DONE && locale.at == NULL);
    icu_locale_free(&locale);
}

static void try_identifier(void)
{
    icu_locale_t locale = ICU_LOCALE_UND;
    WANT(icu_locale_set_script(&locale, TEXT("LATN")) == ICU_LOCALE_DONE && is_now(&locale, "und-Latn"));
    WANT(icu_locale_set_language(&locale, TEXT("Sr")) == ICU_LOCALE_DONE && is_now(&locale, "sr-Latn"));
    WANT(icu_locale_set_region(&locale, TEXT("rs")) == ICU_LOCALE_DONE && is_now(&locale, "sr-Latn-RS"));
    WANT(strcmp(read_part(&locale, icu_locale_get_language), "sr") == 0);
    WANT(strcmp(read_part(&locale, icu_locale_get_script), "Latn") == 0);
    WANT(strcmp(read_part(&locale, icu_locale_get_region), "RS") == 0);
    WANT(icu_locale_set_language(&locale, TEXT("s")) == ICU_LOCALE_INVALID_LANGUAGE);
    WANT(icu_locale_set_language(&locale, TEXT("sr-Latn")) == ICU_LOCALE_INVALID_LANGUAGE);
    WANT(icu_locale_set_script(&locale, TEXT("lat")) == ICU_LOCALE_INVALID_SUBTAG);
    WANT(icu_locale_set_region(&locale, TEXT("\xff\xff")) == ICU_LOCALE_INVALID_SUBTAG);
    WANT(is_now(&locale, "sr-Latn-RS"));
    WANT(icu_locale_set_region(&locale, TEXT("419")) == ICU_LOCALE_DONE && is_now(&locale, "sr-Latn-419"));
    WANT(icu_locale_set_script(&locale, NULL, 0) == ICU_LOCALE_DONE && is_now(&locale, "sr-419"));
    WANT(icu_locale_set_language(&locale, NULL, 0) == ICU_LOCALE_DONE && is_now(&locale, "und-419"));
    WANT(icu_locale_set_region(&locale, NULL, 0) == ICU_LOCALE_DONE && locale.at == NULL);
}

static void try_variants(void)
{
    icu_locale_t locale = ICU_LOCALE_UND;
    WANT(icu_locale_add_variant(&locale, TEXT("POSIX")) == ICU_LOCALE_DONE && is_now(&locale, "und-posix"));
    WANT(icu_locale_add_variant(&locale, TEXT("macos")) == ICU_LOCALE_DONE && is_now(&locale, "und-macos-posix"));
    WANT(icu_locale_add_variant(&locale, TEXT("posix")) == ICU_LOCALE_DONE && is_now(&locale, "und-macos-posix"));
    WANT(icu_locale_add_variant(&locale, TEXT("pos")) == ICU_LOCALE_INVALID_SUBTAG);
    WANT(icu_locale_add_variant(&locale, NULL, 0) == ICU_LOCALE_INVALID_SUBTAG && is_now(&locale, "und-macos-posix"));
    WANT(icu_locale_variant_count(&locale) == 2);
    WANT(strcmp(read_at(&locale, icu_locale_get_variant, 0), "macos") == 0);
    WANT(strcmp(read_at(&locale, icu_locale_get_variant, 1), "posix") == 0);
    WANT(strcmp(read_at(&locale, icu_locale_get_variant, 2), "?") == 0);
    WANT(strcmp(read_at(&locale, icu_locale_get_variant, SIZE_MAX), "?") == 0);
    WANT(icu_locale_has_variant(&locale, TEXT("Macos")) && !icu_locale_has_variant(&locale, TEXT("maco")));
    WANT(!icu_locale_has_variant(&locale, TEXT("fonipa")) && !icu_locale_has_variant(&locale, NULL, 0));
    WANT(icu_locale_remove_variant(&locale, TEXT("fonipa")) == ICU_LOCALE_NOT_FOUND);
    WANT(icu_locale_remove_variant(&locale, TEXT("mac")) == ICU_LOCALE_NOT_FOUND && is_now(&locale, "und-macos-posix"));
    WANT(icu_locale_remove_variant(&locale, TEXT("MACOS")) == ICU_LOCALE_DONE && is_now(&locale, "und-posix"));
    WANT(icu_locale_set_language(&locale, TEXT("en")) == ICU_LOCALE_DONE);
    WANT(icu_locale_clear_variants(&locale) == ICU_LOCALE_DONE && is_now(&locale, "en"));
    WANT(icu_locale_clear_variants(&locale) == ICU_LOCALE_DONE && is_now(&locale, "en"));
    icu_locale_free(&locale);
}

static void try_keywords(void)
{
    icu_locale_t locale = ICU_LOCALE_UND;
    WANT(icu_locale_set_keyword(&locale, TEXT("NU"), TEXT("Latn")) == ICU_LOCALE_DONE && is_now(&locale, "und-u-nu-latn"));
    WANT(icu_locale_set_keyword(&locale, TEXT("ca"), TEXT("islamic-Civil")) == ICU_LOCALE_DONE);
    WANT(icu_locale_set_keyword(&locale, TEXT("kn"), TEXT("true")) == ICU_LOCALE_DONE);
    WANT(icu_locale_set_keyword(&locale, TEXT("kb"), NULL, 0) == ICU_LOCALE_DONE);
    WANT(is_now(&locale, "und-u-ca-islamic-civil-kb-kn-nu-latn") && icu_locale_keyword_count(&locale) == 4);
    WANT(strcmp(keyword(&locale, "CA"), "islamic-civil") == 0 && strcmp(keyword(&locale, "kn"), "") == 0);
    WANT(strcmp(keyword(&locale, "hc"), "?") == 0 && strcmp(keyword(&locale, "calendar"), "?") == 0 && strcmp(keyword(&locale, ""), "?") == 0);
    WANT(strcmp(read_at(&locale, icu_locale_get_keyword_key, 0), "ca") == 0);
    WANT(strcmp(read_at(&locale, icu_locale_get_keyword_value, 0), "islamic-civil") == 0);
    WANT(strcmp(read_at(&locale, icu_locale_get_keyword_key, 3), "nu") == 0);
    WANT(strcmp(read_at(&locale, icu_locale_get_keyword_value, 2), "") == 0);
    WANT(strcmp(read_at(&locale, icu_locale_get_keyword_key, 4), "?") == 0);
    WANT(strcmp(read_at(&locale, icu_locale_get_keyword_value, 4), "?") == 0);
    WANT(icu_locale_set_keyword(&locale, TEXT("c"), TEXT("x")) == ICU_LOCALE_INVALID_EXTENSION);
    WANT(icu_locale_set_keyword(&locale, TEXT("ca"), TEXT("x")) == ICU_LOCALE_INVALID_SUBTAG);
    WANT(icu_locale_set_keyword(&locale, TEXT("ca"), TEXT("roc-")) == ICU_LOCALE_INVALID_SUBTAG);
    WANT(icu_locale_remove_keyword(&locale, TEXT("hc")) == ICU_LOCALE_NOT_FOUND);
    WANT(icu_locale_remove_keyword(&locale, TEXT("calendar")) == ICU_LOCALE_NOT_FOUND);
    WANT(is_now(&locale, "und-u-ca-islamic-civil-kb-kn-nu-latn"));
    WANT(icu_locale_set_keyword(&locale, TEXT("ca"), TEXT("roc")) == ICU_LOCALE_DONE);
    WANT(icu_locale_remove_keyword(&locale, TEXT("Nu")) == ICU_LOCALE_DONE && is_now(&locale, "und-u-ca-roc-kb-kn"));
    WANT(icu_locale_is_well_formed(&locale) && icu_locale_set_keyword(&locale, TEXT("ca"), TEXT("nu")) == ICU_LOCALE_DONE);
    WANT(!icu_locale_is_well_formed(&locale) && is_now(&locale, "und-u-ca-nu-kb-kn"));
    WANT(icu_locale_clear_keywords(&locale) == ICU_LOCALE_DONE && locale.at == NULL);
}

static void try_attributes(void)
{
    icu_locale_t locale = ICU_LOCALE_UND;
    WANT(icu_locale_attribute_count(&locale) == 0 && strcmp(read_at(&locale, icu_locale_get_attribute, 0), "?") == 0);
    WANT(icu_locale_remove_attribute(&locale, TEXT("foo")) == ICU_LOCALE_NOT_FOUND && locale.at == NULL);
    WANT(icu_locale_add_attribute(&locale, TEXT("FOO")) == ICU_LOCALE_DONE && is_now(&locale, "und-u-foo"));
    WANT(icu_locale_add_attribute(&locale, TEXT("bar")) == ICU_LOCALE_DONE && is_now(&locale, "und-u-bar-foo"));
    WANT(icu_locale_add_attribute(&locale, TEXT("bar")) == ICU_LOCALE_DONE && is_now(&locale, "und-u-bar-foo"));
    WANT(icu_locale_add_attribute(&locale, TEXT("ba")) == ICU_LOCALE_INVALID_EXTENSION);
    WANT(icu_locale_add_attribute(&locale, NULL, 0) == ICU_LOCALE_INVALID_EXTENSION && is_now(&locale, "und-u-bar-foo"));
    WANT(icu_locale_attribute_count(&locale) == 2);
    WANT(strcmp(read_at(&locale, icu_locale_get_attribute, 0), "bar") == 0);
    WANT(strcmp(read_at(&locale, icu_locale_get_attribute, 1), "foo") == 0);
    WANT(strcmp(read_at(&locale, icu_locale_get_attribute, 2), "?") == 0);
    WANT(icu_locale_has_attribute(&locale, TEXT("Foo")) && !icu_locale_has_attribute(&locale, TEXT("fo")));
    WANT(!icu_locale_has_attribute(&locale, TEXT("baz")) && !icu_locale_has_attribute(&locale, NULL, 0));
    WANT(icu_locale_remove_attribute(&locale, TEXT("baz")) == ICU_LOCALE_NOT_FOUND);
    WANT(icu_locale_remove_attribute(&locale, TEXT("b")) == ICU_LOCALE_NOT_FOUND && is_now(&locale, "und-u-bar-foo"));
    WANT(icu_locale_set_keyword(&locale, TEXT("ca"), TEXT("roc")) == ICU_LOCALE_DONE && is_now(&locale, "und-u-bar-foo-ca-roc"));
    WANT(icu_locale_remove_attribute(&locale, TEXT("BAR")) == ICU_LOCALE_DONE && is_now(&locale, "und-u-foo-ca-roc"));
    WANT(icu_locale_clear_attributes(&locale) == ICU_LOCALE_DONE && is_now(&locale, "und-u-ca-roc"));
    WANT(icu_locale_clear_keywords(&locale) == ICU_LOCALE_DONE && locale.at == NULL);
}

static const char *field(icu_locale_t *locale, const char *key)
{
    return ended(icu_locale_get_field(locale, TEXT(key), ROOM_FOR_PART));
}

static void try_transform(void)
{
    icu_locale_t locale = ICU_LOCALE_UND;
    WANT(strcmp(read_part(&locale, icu_locale_get_transform_language), "?") == 0 && icu_locale_field_count(&locale) == 0);
    WANT(icu_locale_set_transform_language(&locale, NULL, 0) == ICU_LOCALE_DONE && locale.at == NULL);
    WANT(icu_locale_set_transform_language(&locale, TEXT("DE-latn")) == ICU_LOCALE_DONE && is_now(&locale, "und-t-de-latn"));
    WANT(strcmp(read_part(&locale, icu_locale_get_transform_language), "de-Latn") == 0);
    WANT(icu_locale_set_transform_language(&locale, TEXT("d")) == ICU_LOCALE_INVALID_LANGUAGE);
    WANT(icu_locale_set_transform_language(&locale, TEXT("de-u-ca-roc")) == ICU_LOCALE_INVALID_SUBTAG);
    WANT(icu_locale_set_field(&locale, TEXT("M0"), TEXT("din")) == ICU_LOCALE_DONE && is_now(&locale, "und-t-de-latn-m0-din"));
    WANT(icu_locale_set_field(&locale, TEXT("h0"), TEXT("True")) == ICU_LOCALE_DONE);
    WANT(is_now(&locale, "und-t-de-latn-h0-true-m0-din") && icu_locale_field_count(&locale) == 2);
    WANT(strcmp(field(&locale, "m0"), "din") == 0 && strcmp(field(&locale, "H0"), "true") == 0);
    WANT(strcmp(field(&locale, "s0"), "?") == 0 && strcmp(field(&locale, "mm"), "?") == 0 && strcmp(field(&locale, ""), "?") == 0);
    WANT(strcmp(read_at(&locale, icu_locale_get_field_key, 0), "h0") == 0);
    WANT(strcmp(read_at(&locale, icu_locale_get_field_key, 1), "m0") == 0);
    WANT(strcmp(read_at(&locale, icu_locale_get_field_key, 2), "?") == 0);
    WANT(strcmp(read_at(&locale, icu_locale_get_field_value, 0), "true") == 0);
    WANT(strcmp(read_at(&locale, icu_locale_get_field_value, 1), "din") == 0);
    WANT(strcmp(read_at(&locale, icu_locale_get_field_value, 2), "?") == 0);
    WANT(icu_locale_set_field(&locale, TEXT("mm"), TEXT("din")) == ICU_LOCALE_INVALID_EXTENSION);
    WANT(icu_locale_set_field(&locale, TEXT("m0"), NULL, 0) == ICU_LOCALE_INVALID_EXTENSION);
    WANT(icu_locale_set_field(&locale, TEXT("m0"), TEXT("di")) == ICU_LOCALE_INVALID_EXTENSION);
    WANT(is_now(&locale, "und-t-de-latn-h0-true-m0-din"));
    WANT(icu_locale_set_transform_language(&locale, NULL, 0) == ICU_LOCALE_DONE && is_now(&locale, "und-t-h0-true-m0-din"));
    WANT(icu_locale_remove_field(&locale, TEXT("s0")) == ICU_LOCALE_NOT_FOUND);
    WANT(icu_locale_remove_field(&locale, TEXT("mm")) == ICU_LOCALE_NOT_FOUND);
    WANT(icu_locale_remove_field(&locale, NULL, 0) == ICU_LOCALE_NOT_FOUND && is_now(&locale, "und-t-h0-true-m0-din"));
    WANT(icu_locale_remove_field(&locale, TEXT("H0")) == ICU_LOCALE_DONE && is_now(&locale, "und-t-m0-din"));
    WANT(icu_locale_remove_field(&locale, TEXT("m0")) == ICU_LOCALE_DONE && locale.at == NULL);
    WANT(icu_locale_set_field(&locale, TEXT("h0"), TEXT("hybrid")) == ICU_LOCALE_DONE);
    WANT(icu_locale_clear_fields(&locale) == ICU_LOCALE_DONE && locale.at == NULL);
}

static void try_private(void)
{
    icu_locale_t locale = ICU_LOCALE_UND;
    WANT(strcmp(read_part(&locale, icu_locale_get_private), "") == 0);
    WANT(icu_locale_set_private(&locale, TEXT("X-A-bb")) == ICU_LOCALE_DONE && is_now(&locale, "und-x-a-bb"));
    WANT(strcmp(read_part(&locale, icu_locale_get_private), "x-a-bb") == 0);
    WANT(icu_locale_set_private(&locale, TEXT("a-bb")) == ICU_LOCALE_INVALID_EXTENSION);
    WANT(icu_locale_set_private(&locale, TEXT("x")) == ICU_LOCALE_INVALID_EXTENSION);
    WANT(icu_locale_set_private(&locale, TEXT("x-abcdefghi")) == ICU_LOCALE_INVALID_EXTENSION && is_now(&locale, "und-x-a-bb"));
    WANT(icu_locale_set_private(&locale, NULL, 0) == ICU_LOCALE_DONE && locale.at == NULL);
}

static const char *other(icu_locale_t *locale, uint8_t singleton)
{
    return ended(icu_locale_get_other(locale, singleton, ROOM_FOR_PART));
}

static void try_others(void)
{
    icu_locale_t locale = ICU_LOCALE_UND;
    size_t needed = 77;
    uint8_t small[4] = "###";
    WANT(!icu_locale_has_other(&locale, 'a') && strcmp(other(&locale, 'a'), "?") == 0);
    WANT(icu_locale_remove_other(&locale, 'a') == ICU_LOCALE_NOT_FOUND && locale.at == NULL);
    WANT(icu_locale_set_other(&locale, TEXT("Z-Zz")) == ICU_LOCALE_DONE && is_now(&locale, "und-z-zz"));
    WANT(icu_locale_set_other(&locale, TEXT("A-Foo-BAR")) == ICU_LOCALE_DONE && is_now(&locale, "und-a-foo-bar-z-zz"));
    WANT(icu_locale_set_other(&locale, TEXT("9-12345678")) == ICU_LOCALE_DONE);
    WANT(icu_locale_set_keyword(&locale, TEXT("ca"), TEXT("roc")) == ICU_LOCALE_DONE);
    WANT(is_now(&locale, "und-9-12345678-a-foo-bar-u-ca-roc-z-zz"));
    WANT(icu_locale_has_other(&locale, 'A') && icu_locale_has_other(&locale, 'z') && !icu_locale_has_other(&locale, 'b'));
    WANT(!icu_locale_has_other(&locale, 'u') && !icu_locale_has_other(&locale, 0) && !icu_locale_has_other(&locale, 0xff));
    WANT(strcmp(other(&locale, 'a'), "a-foo-bar") == 0 && strcmp(other(&locale, 'Z'), "z-zz") == 0);
    WANT(strcmp(other(&locale, 'u'), "?") == 0 && strcmp(other(&locale, 'x'), "?") == 0);
    WANT(icu_locale_get_other(&locale, 'a', small, 3, &needed) == ICU_LOCALE_BUFFER_TOO_SMALL);
    WANT(needed == 9 && memcmp(small, "###", 4) == 0);
    WANT(icu_locale_get_other(&locale, 'a', NULL, 0, &needed) == ICU_LOCALE_BUFFER_TOO_SMALL && needed == 9);
    WANT(icu_locale_set_other(&locale, TEXT("a")) == ICU_LOCALE_INVALID_EXTENSION);
    WANT(icu_locale_set_other(&locale, TEXT("a-b")) == ICU_LOCALE_INVALID_EXTENSION);
    WANT(icu_locale_set_other(&locale, TEXT("a-foo-b-bar")) == ICU_LOCALE_INVALID_EXTENSION);
    WANT(icu_locale_set_other(&locale, TEXT("a-foo-")) == ICU_LOCALE_INVALID_EXTENSION);
    WANT(icu_locale_set_other(&locale, TEXT("a-!!")) == ICU_LOCALE_INVALID_EXTENSION);
    WANT(icu_locale_set_other(&locale, TEXT("a-123456789")) == ICU_LOCALE_INVALID_EXTENSION);
    WANT(icu_locale_set_other(&locale, TEXT("aa-foo")) == ICU_LOCALE_INVALID_EXTENSION);
    WANT(icu_locale_set_other(&locale, TEXT("u-ca")) == ICU_LOCALE_INVALID_EXTENSION);
    WANT(icu_locale_set_other(&locale, TEXT("T-de")) == ICU_LOCALE_INVALID_EXTENSION);
    WANT(icu_locale_set_other(&locale, TEXT("x-foo")) == ICU_LOCALE_INVALID_EXTENSION);
    WANT(icu_locale_set_other(&locale, TEXT("!-foo")) == ICU_LOCALE_INVALID_EXTENSION);
    WANT(icu_locale_set_other(&locale, NULL, 0) == ICU_LOCALE_INVALID_EXTENSION);
    WANT(is_now(&locale, "und-9-12345678-a-foo-bar-u-ca-roc-z-zz"));
    WANT(icu_locale_set_other(&locale, TEXT("a-!!-baz")) == ICU_LOCALE_DONE && strcmp(other(&locale, 'a'), "a-baz") == 0);
    WANT(icu_locale_remove_other(&locale, 'x') == ICU_LOCALE_NOT_FOUND);
    WANT(icu_locale_remove_other(&locale, 'u') == ICU_LOCALE_NOT_FOUND);
    WANT(icu_locale_remove_other(&locale, 'A') == ICU_LOCALE_DONE && is_now(&locale, "und-9-12345678-u-ca-roc-z-zz"));
    WANT(icu_locale_remove_other(&locale, 'a') == ICU_LOCALE_NOT_FOUND);
    WANT(icu_locale_clear_keywords(&locale) == ICU_LOCALE_DONE && icu_locale_remove_other(&locale, '9') == ICU_LOCALE_DONE);
    WANT(icu_locale_remove_other(&locale, 'z') == ICU_LOCALE_DONE && locale.at == NULL);
}

static void try_extending(void)
{
    icu_locale_t locale = ICU_LOCALE_UND, from = ICU_LOCALE_UND;
    WANT(icu_locale_extend_unicode(&locale, &from) == ICU_LOCALE_DONE && locale.at == NULL);
    PARSES(&from, "de-t-fr-u-foo-ca-roc-nu-latn-x-a");
    WANT(icu_locale_extend_unicode(&locale, &from) == ICU_LOCALE_DONE && is_now(&locale, "und-u-foo-ca-roc-nu-latn"));
    PARSES(&locale, "en-US-u-bar-ca-buddhist-hc-h12-x-b");
    WANT(icu_locale_extend_unicode(&locale, &from) == ICU_LOCALE_DONE);
    WANT(is_now(&locale, "en-US-u-bar-foo-ca-roc-hc-h12-nu-latn-x-b") && is_now(&from, "de-t-fr-u-foo-ca-roc-nu-latn-x-a"));
    icu_locale_free(&from);
    WANT(icu_locale_extend_unicode(&locale, &from) == ICU_LOCALE_DONE && from.at == NULL);
    WANT(is_now(&locale, "en-US-u-bar-foo-ca-roc-hc-h12-nu-latn-x-b"));
    icu_locale_free(&locale);
}

static const char *data(icu_locale_t *locale, icu_locale_priority priority)
{
    return ended(icu_locale_get_data_locale(locale, priority, ROOM_FOR_PART));
}

/* The texts of both data locales of a locale. */
static int is_data(const char *text, const char *by_language, const char *by_region)
{
    icu_locale_t locale = ICU_LOCALE_UND;
    int8_t order = 9;
    PARSES(&locale, text);
    int is_same = strcmp(data(&locale, ICU_LOCALE_BY_LANGUAGE), by_language) == 0;
    is_same = is_same && strcmp(data(&locale, ICU_LOCALE_BY_REGION), by_region) == 0;
    WANT(icu_locale_data_cmp_bytes(&locale, ICU_LOCALE_BY_LANGUAGE, TEXT(by_language), &order) == ICU_LOCALE_DONE && order == 0);
    WANT(icu_locale_data_cmp_bytes(&locale, ICU_LOCALE_BY_REGION, TEXT(by_region), &order) == ICU_LOCALE_DONE && order == 0);
    icu_locale_free(&locale);
    return is_same;
}

static void try_data(void)
{
    icu_locale_t locale = ICU_LOCALE_UND, other = ICU_LOCALE_UND;
    size_t needed = 77;
    int8_t order = 9;
    uint8_t small[3] = "##";
    WANT(is_data("und", "und", "und") && is_data("EN-latn-gb-posix-u-ca-roc", "en-Latn-GB-posix", "en-Latn-GB-posix"));
    WANT(is_data("en-GB-u-rg-uszzzz", "en-GB", "en-US") && is_data("en-u-rg-ustx", "en", "en-US-u-sd-ustx"));
    WANT(is_data("en-US-u-sd-ustx", "en-US-u-sd-ustx", "en-US-u-sd-ustx") && is_data("en-FR-u-sd-ustx", "en-FR", "en-FR"));
    WANT(is_data("en-u-sd-ustx", "en-US-u-sd-ustx", "en-US-u-sd-ustx"));
    PARSES(&locale, "en-GB-u-rg-uszzzz");
    PARSES(&other, "en-GB");
    WANT(icu_locale_data_cmp(&locale, &other, ICU_LOCALE_BY_LANGUAGE, &order) == ICU_LOCALE_DONE && order == 0);
    WANT(icu_locale_data_cmp(&locale, &other, ICU_LOCALE_BY_REGION, &order) == ICU_LOCALE_DONE && order == 1);
    WANT(icu_locale_data_cmp(&other, &locale, ICU_LOCALE_BY_REGION, &order) == ICU_LOCALE_DONE && order == -1);
    WANT(icu_locale_data_cmp_bytes(&locale, ICU_LOCALE_BY_REGION, NULL, 0, &order) == ICU_LOCALE_DONE && order == 1);
    WANT(icu_locale_data_cmp_bytes(&locale, ICU_LOCALE_BY_REGION, TEXT("f"), &order) == ICU_LOCALE_DONE && order == -1);
    WANT(icu_locale_get_data_locale(&locale, 2, small, 3, &needed) == ICU_LOCALE_UNKNOWN_NUMBER && needed == 0);
    WANT(icu_locale_get_data_locale(&locale, 0, small, 3, &needed) == ICU_LOCALE_BUFFER_TOO_SMALL && needed == 5);
    WANT(memcmp(small, "##", 3) == 0);
    order = 9;
    WANT(icu_locale_data_cmp_bytes(&locale, UINT32_MAX, TEXT("en"), &order) == ICU_LOCALE_UNKNOWN_NUMBER && order == 9);
    WANT(icu_locale_data_cmp(&locale, &other, 2, &order) == ICU_LOCALE_UNKNOWN_NUMBER && order == 9);
    WANT(is_now(&locale, "en-GB-u-rg-uszzzz") && is_now(&other, "en-GB"));
    icu_locale_free(&locale);
    icu_locale_free(&other);
}

/* What formatters take from the keywords of a text. */
static int formats(const char *text, const char *calendar, const char *hours, const char *numbering)
{
    icu_locale_t locale = ICU_LOCALE_UND;
    PARSES(&locale, text);
    int is_same = strcmp(read_part(&locale, icu_locale_get_calendar_algorithm), calendar) == 0;
    is_same = is_same && strcmp(read_part(&locale, icu_locale_get_hour_cycle), hours) == 0;
    is_same = is_same && strcmp(read_part(&locale, icu_locale_get_numbering_system), numbering) == 0;
    WANT(is_now(&locale, normal_of(ICU_LOCALE_LOCALE, text)));
    icu_locale_free(&locale);
    return is_same;
}

static void try_formats(void)
{
    WANT(formats("und", "?", "?", "?") && formats("en-u-CA-Buddhist-HC-H12-NU-Thai", "buddhist", "h12", "thai"));
    WANT(formats("en-u-ca-islamicc-hc-c24-nu-latn", "islamic-civil", "c24", "latn"));
    WANT(formats("en-u-ca-islamic-umalqura-hc-h23-nu-ab1", "islamic-umalqura", "h23", "ab1"));
    WANT(formats("en-u-ca-islamic", "islamic", "?", "?") && formats("en-u-ca-ethiopic-amete-alem", "ethioaa", "?", "?"));
    WANT(formats("en-u-ca-hc-nu", "?", "?", "?") && formats("en-u-ca-true-hc-h25-nu-latn-foo", "?", "?", "?"));
    WANT(formats("en-u-ca-buddhist-foo-hc-h12-h23", "?", "?", "?"));
}

/* Each allocation of each call refused in turn. */

static long until_refused = -1, live;

#ifdef REFUSING
void *__real_malloc(size_t size);
void *__real_realloc(void *place, size_t size);
void __real_free(void *place);

static int is_refused(void)
{
    return until_refused >= 0 && until_refused-- == 0;
}

void *__wrap_malloc(size_t size)
{
    if (is_refused())
        return NULL;
    live++;
    return __real_malloc(size);
}

void *__wrap_realloc(void *place, size_t size)
{
    if (is_refused())
        return NULL;
    live += place == NULL;
    return __real_realloc(place, size);
}

void __wrap_free(void *place)
{
    live -= place != NULL;
    __real_free(place);
}
#endif

static icu_locale_t source;

/* The calls that take a text, and in which of the four starting locales each may allocate. */
static const struct setting {
    icu_locale_status (*call)(icu_locale_t *, const uint8_t *, size_t);
    const char *text, *may_allocate;
} SETTINGS[] = {
    {icu_locale_parse, "de-aaaaa-bbbbb-ccccc-ddddd-eeeee-t-und-m0-abc-u-aaa-ca-aaa-bbb-ccc-ddd-eee-co-phonebk-x-a-b-c-d-e", "1111"},
    {icu_locale_set_language, "fr", "1000"},
    {icu_locale_set_script, "Cyrl", "1000"},
    {icu_locale_set_region, "FR", "1000"},
    {icu_locale_add_variant, "posix", "1011"},
    {icu_locale_add_attribute, "foo", "1111"},
    {icu_locale_set_transform_language, "de-aaaaa-bbbbb-ccccc-ddddd-eeeee", "1111"},
    {icu_locale_set_private, "x-a-b-c-d-e-f", "1111"},
    {icu_locale_set_other, "a-aaa-bbb-ccc-ddd-eee", "1111"},
};
static const struct setting *setting_now;

static icu_locale_status call_setting(icu_locale_t *it)
{
    return setting_now->call(it, TEXT(setting_now->text));
}

static icu_locale_status call_copy(icu_locale_t *it)
{
    return icu_locale_copy(it, &source);
}

static icu_locale_status call_remove_attribute(icu_locale_t *it)
{
    icu_locale_status status = icu_locale_remove_attribute(it, TEXT("bbb"));
    return status == ICU_LOCALE_NOT_FOUND ? ICU_LOCALE_DONE : status;
}

static icu_locale_status call_field(icu_locale_t *it)
{
    return icu_locale_set_field(it, TEXT("h0"), TEXT("aaa-bbb-ccc-ddd-eee"));
}

static icu_locale_status call_keyword(icu_locale_t *it)
{
    return icu_locale_set_keyword(it, TEXT("nu"), TEXT("aaa-bbb-ccc-ddd-eee-fff"));
}

static icu_locale_status call_extend(icu_locale_t *it)
{
    return icu_locale_extend_unicode(it, &source);
}

static icu_locale_status call_eq_text(icu_locale_t *it)
{
    uint8_t same = 9;
    icu_locale_status status = icu_locale_eq_text(it, TEXT("de-aaaaa-bbbbb-ccccc-ddddd-eeeee-u-ca-roc-co-phonebk"), &same);
    WANT((same == 9) == (status == ICU_LOCALE_OUT_OF_MEMORY));
    return status;
}

static icu_locale_status call_long_text(icu_locale_t *it)
{
    (void)it;
    return icu_locale_region_of(ICU_LOCALE_LOCALE, TEXT("en-us-aaaaa-bbbbb-ccccc-ddddd-eeeee-fffff-ggggg-hhhhh"), ROOM_FOR_PART);
}

static icu_locale_status call_matches(icu_locale_t *it)
{
    uint8_t same = 9;
    icu_locale_status status = icu_locale_matches(TEXT("EN-us-u-ca-roc"), TEXT("EN-us"), &same);
    (void)it;
    WANT((same == 9) == (status == ICU_LOCALE_OUT_OF_MEMORY));
    return status;
}

static icu_locale_status call_clean(icu_locale_t *it)
{
    (void)it;
    return icu_locale_clean(TEXT("sr_RS.UTF-8@latin"), ROOM_FOR_PART);
}

static icu_locale_status call_nothing(icu_locale_t *it)
{
    WANT(icu_locale_set_region(it, TEXT("fra")) == ICU_LOCALE_INVALID_SUBTAG);
    WANT(icu_locale_remove_variant(it, TEXT("fonipa")) == ICU_LOCALE_NOT_FOUND);
    WANT(icu_locale_remove_keyword(it, TEXT("zz")) == ICU_LOCALE_NOT_FOUND);
    WANT(icu_locale_remove_field(it, TEXT("z0")) == ICU_LOCALE_NOT_FOUND && !icu_locale_has_other(it, 'z'));
    WANT(icu_locale_remove_other(it, 'z') == ICU_LOCALE_NOT_FOUND);
    WANT(strcmp(data(it, ICU_LOCALE_BY_REGION), "") != 0 && strcmp(other(it, 'z'), "?") == 0);
    WANT(strcmp(read_part(it, icu_locale_get_hour_cycle), "?") == 0);
    return icu_locale_clear_keywords(it);
}

static void refuse_each(icu_locale_status (*call)(icu_locale_t *), const char *start, int may_allocate)
{
    for (long n = 0;; n++) {
        icu_locale_t locale = ICU_LOCALE_UND;
        char before[ROOM];
        PARSES(&locale, start);
        put(before, sizeof before, read_part(&locale, icu_locale_to_string));
        until_refused = n;
        icu_locale_status status = call(&locale);
        int is_over = until_refused >= 0;
        until_refused = -1;
        WANT(status == (is_over ? ICU_LOCALE_DONE : ICU_LOCALE_OUT_OF_MEMORY));
        WANT(is_over || (may_allocate && is_now(&locale, before)));
        WANT(is_over || strcmp(before, "und") != 0 || locale.at == NULL);
        icu_locale_free(&locale);
        if (is_over)
            break;
    }
}

static void try_refused(void)
{
    const char *starts[] = {"und", "en", "en-aaaaa-bbbbb-ccccc-ddddd", "en-aaaaa-bbbbb-ccccc-ddddd-eeeee-t-de-m0-abc-u-aaa-bbb-ccc-ddd-eee-ca-roc-nu-latn-x-a-b-c-d-e"};
    PARSES(&source, "de-aaaaa-bbbbb-ccccc-ddddd-eeeee-t-und-m0-abc-u-aaa-bbb-ccc-ddd-eee-ca-aaa-bbb-ccc-ddd-eee-co-phonebk-x-a-b-c-d-e");
    long held = live;
    for (size_t i = 0; i < sizeof starts / sizeof *starts; i++) {
        for (setting_now = SETTINGS; setting_now < SETTINGS + sizeof SETTINGS / sizeof *SETTINGS; setting_now++)
            refuse_each(call_setting, starts[i], setting_now->may_allocate[i] == '1');
        refuse_each(call_copy, starts[i], 1);
        refuse_each(call_remove_attribute, starts[i], i == 3);
        refuse_each(call_keyword, starts[i], 1);
        refuse_each(call_field, starts[i], 1);
        refuse_each(call_extend, starts[i], 1);
        refuse_each(call_eq_text, starts[i], 1);
        refuse_each(call_long_text, starts[i], 1);
        refuse_each(call_matches, starts[i], 1);
        refuse_each(call_clean, starts[i], 1);
        refuse_each(call_nothing, starts[i], 0);
        WANT(live == held);
    }
    icu_locale_free(&source);
    WANT(live == 0);
}

int main(int count, char **words)
{
    if (count == 2 && !strcmp(words[1], "parts")) {
        try_und();
        try_whole();
        try_identifier();
        try_variants();
        try_keywords();
        try_attributes();
        try_transform();
        try_private();
        try_others();
        try_extending();
        try_data();
        try_formats();
        try_parts_of_texts();
        try_modes_of_texts();
        try_long_texts();
        try_ranges();
    } else if (count == 2 && !strcmp(words[1], "refused")) {
        try_refused();
    } else {
        fprintf(stderr, "usage: handles parts | refused\n");
        return 2;
    }
    printf("%lu\n", cases);
    return 0;
}
