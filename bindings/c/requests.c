/* Counts what calls on a text ask of malloc, for tools/try_bindings: nothing where the header says so. Each request of the
 * call for many texts is refused in turn. It is linked with the library of tools/refusing.py.
 *
 * The last line is the number of cases; the first that is not as wanted ends the program. */
#include "icu_locale.h"
#include "refusing.h"

#include <stdio.h>
#include <stdlib.h>
#include <string.h>

static unsigned long cases;

#define WANT(it)                                                                          \
    do {                                                                                  \
        cases++;                                                                          \
        if (!(it)) {                                                                      \
            fprintf(stderr, "requests.c:%d: %s: not so: %s\n", __LINE__, text, #it);      \
            exit(1);                                                                      \
        }                                                                                 \
    } while (0)

/* Texts of locales. `may_ask`: the header lists what it has among what a locale allocates for. */
static const struct {
    const char *text;
    int may_ask;
} TEXTS[] = {
    {"und", 0},
    {"en", 0},
    {"EN-latn-us", 0},
    {"en-US-posix", 0},
    {"en-aaaaa-bbbbb-ccccc-ddddd", 0},
    {"en-aaaaa-bbbbb-ccccc-ddddd-eeeee", 1},
    {"en-u-foo", 0},
    {"en-u-aaa-bbb-ccc-ddd", 0},
    {"en-u-aaa-bbb-ccc-ddd-eee", 1},
    {"en-u-kn", 0},
    {"en-u-ca-buddhist", 0},
    {"en-u-ca-foo-nu-bar", 1},
    {"en-u-ca-aaa-bbb-ccc-ddd", 0},
    {"en-u-ca-aaa-bbb-ccc-ddd-eee", 1},
    {"en-u-aaa-bbb-ccc-ddd-ca-buddhist", 0},
    {"en-t-de-latn-at", 0},
    {"en-t-de-aaaaa-bbbbb-ccccc-ddddd", 0},
    {"en-t-de-aaaaa-bbbbb-ccccc-ddddd-eeeee", 1},
    {"en-t-m0-foo", 1},
    {"en-a-foo", 1},
    {"en-x-a-b-c-d", 0},
    {"en-x-a-b-c-d-e", 1},
    {"en-posix-t-de-u-foo-ca-roc-x-a", 0},
    /* refused */
    {"e", 0},
    {"en-", 0},
    {"en-u", 0},
    {"en-posix-posix", 0},
    {"en-u-ca-roc-x", 0},
};

static const uint8_t *text_bytes(const char *text)
{
    return (const uint8_t *)text;
}

/* Counts from here on. */
static void begin(void)
{
    refusing_after(-1);
}

/* What a call on the text alone asks. */
static icu_locale_status look_at_check(const char *text, int may_ask)
{
    begin();
    icu_locale_status status = icu_locale_check(ICU_LOCALE_LOCALE, text_bytes(text), strlen(text));
    WANT(may_ask || refusing_requests() == 0);
    uint8_t buffer[128];
    size_t needed, start, end;
    begin();
    WANT(icu_locale_find_fault(ICU_LOCALE_LOCALE, text_bytes(text), strlen(text), &start, &end) == status);
    WANT(refusing_requests() == 0);
    icu_locale_kinds kinds;
    icu_locale_hint_number hint;
    WANT(icu_locale_expected(ICU_LOCALE_LOCALE, text_bytes(text), strlen(text), strlen(text), &kinds) == ICU_LOCALE_DONE);
    WANT(icu_locale_hint(ICU_LOCALE_LOCALE, text_bytes(text), strlen(text), &hint) == ICU_LOCALE_DONE);
    (void)icu_locale_expected_words(kinds, buffer, sizeof buffer, &needed);
    (void)icu_locale_hint_words(hint, buffer, sizeof buffer, &needed);
    WANT(refusing_requests() == 0);
    begin();
    WANT(icu_locale_normalize(ICU_LOCALE_LOCALE, text_bytes(text), strlen(text), buffer, sizeof buffer, &needed) == status);
    WANT(may_ask || refusing_requests() == 0);
    /* A match asks nothing for a text in its normal form. */
    int is_normal = status == ICU_LOCALE_DONE && needed == strlen(text) && memcmp(buffer, text, needed) == 0;
    uint8_t same;
    begin();
    WANT(icu_locale_matches(text_bytes(text), strlen(text), text_bytes("und"), 3, &same) == status);
    WANT(may_ask || (status == ICU_LOCALE_DONE && !is_normal) || refusing_requests() == 0);
    begin();
    (void)!icu_locale_check(ICU_LOCALE_DATA_LOCALE, text_bytes(text), strlen(text));
    WANT(refusing_requests() == 0);
    return status;
}

/* What parsing it asks: of a handle that is und for the locale itself, and else only for what the header lists. */
static void look_at_parse(const char *text, int may_ask, icu_locale_status status)
{
    icu_locale_t it = ICU_LOCALE_UND, other = ICU_LOCALE_UND;
    begin();
    WANT(icu_locale_parse(&it, text_bytes(text), strlen(text)) == status);
    long first = refusing_requests(), holds = status == ICU_LOCALE_DONE && !icu_locale_is_und(&it);
    WANT(may_ask ? first >= 2 : first == holds);
    WANT(icu_locale_parse(&other, text_bytes("de"), 2) == ICU_LOCALE_DONE);
    begin();
    WANT(icu_locale_parse(&other, text_bytes(text), strlen(text)) == status);
    WANT(may_ask ? refusing_requests() >= 1 : refusing_requests() == 0);
    icu_locale_free(&it);
    icu_locale_free(&other);
    WANT(refusing_live() == 0);
}

/* With each of its requests refused in turn, the call for many texts is out of memory, writes nothing and holds nothing. */
static void refuse_lines(const char *text, size_t wanted)
{
    static uint8_t buffer[4096];
    size_t needed = 99;
    icu_locale_status status = ICU_LOCALE_DONE;
    long granted = -1;
    do {
        memset(buffer, '#', sizeof buffer);
        refusing_after(++granted);
        status = icu_locale_normalize_lines(ICU_LOCALE_LOCALE, text_bytes(text), strlen(text), buffer, sizeof buffer, &needed);
        WANT(refusing_live() == 0);
        WANT(refusing_refused() == (status == ICU_LOCALE_OUT_OF_MEMORY));
        WANT(status == ICU_LOCALE_DONE || (needed == 0 && buffer[0] == '#'));
    } while (status == ICU_LOCALE_OUT_OF_MEMORY);
    WANT(granted > 0 && status == ICU_LOCALE_DONE && needed == wanted && buffer[needed] == '#');
}

int main(void)
{
    static char many[1024] = "EN-us\nen-x";
    for (int at = 0; at < 99; at++)
        strcat(many, "-a");
    refuse_lines("EN-us", 6);
    refuse_lines("e\n\n\ne", 4 * 39);
    refuse_lines(many, strlen(many) + 1);
    for (size_t at = 0; at < sizeof TEXTS / sizeof *TEXTS; at++) {
        icu_locale_status status = look_at_check(TEXTS[at].text, TEXTS[at].may_ask);
        look_at_parse(TEXTS[at].text, TEXTS[at].may_ask, status);
    }
    printf("%lu\n", cases);
    return 0;
}
