/* Gives each call that takes two handles one handle in both places, for tools/try_bindings.
 *
 * The last line is the number of cases; the first that is not as wanted ends the program. */
#include "icu_locale.h"
#include "wanted.h"

#include <stdio.h>
#include <stdlib.h>
#include <string.h>

static const char *const TEXTS[] = {"und", "en", "en-Latn-US-posix", "de-u-foo-ca-roc-hc-h12",
    "en-aaaaa-bbbbb-ccccc-ddddd-eeeee-a-foo-t-de-m0-abc-abcdefgh-u-aaa-bbb-ca-roc-rg-gbzzzz-x-a-b-c-d-e"};
enum { COUNT = sizeof TEXTS / sizeof *TEXTS };

/* Pointers to the functions, so that a compiler cannot put the functions in the place of their calls. */
static struct {
    bool (*volatile eq)(const icu_locale_t *, const icu_locale_t *);
    int8_t (*volatile cmp)(const icu_locale_t *, const icu_locale_t *);
    icu_locale_status (*volatile copy)(icu_locale_t *, const icu_locale_t *);
    icu_locale_status (*volatile extend)(icu_locale_t *, const icu_locale_t *);
    icu_locale_status (*volatile data_cmp)(const icu_locale_t *, const icu_locale_t *, icu_locale_priority, int8_t *);
} BY_POINTER = {icu_locale_eq, icu_locale_cmp, icu_locale_copy, icu_locale_extend_unicode, icu_locale_data_cmp};

static icu_locale_t parsed(const char *text)
{
    icu_locale_t made = ICU_LOCALE_UND;
    WANT(icu_locale_parse(&made, (const uint8_t *)text, strlen(text)) == ICU_LOCALE_DONE);
    return made;
}

static int is_text(icu_locale_t *locale, const char *text)
{
    uint8_t buffer[128];
    size_t needed = 0;
    return icu_locale_to_string(locale, buffer, sizeof buffer, &needed) == ICU_LOCALE_DONE && needed == strlen(text)
        && memcmp(buffer, text, needed) == 0;
}

static void itself(const char *text)
{
    icu_locale_t it = parsed(text);
    for (uint32_t by = ICU_LOCALE_BY_LANGUAGE; by <= ICU_LOCALE_BY_REGION; by++) {
        int8_t order = 9;
        WANT(icu_locale_data_cmp(&it, &it, by, &order) == ICU_LOCALE_DONE && order == 0);
        order = 9;
        WANT(BY_POINTER.data_cmp(&it, &it, by, &order) == ICU_LOCALE_DONE && order == 0);
    }
    for (uint32_t by = 2; by < 10; by++) {
        int8_t order = 9;
        WANT(icu_locale_data_cmp(&it, &it, by, &order) == ICU_LOCALE_UNKNOWN_NUMBER && order == 9);
    }
    WANT(icu_locale_eq(&it, &it) && BY_POINTER.eq(&it, &it));
    WANT(BY_POINTER.cmp(&it, &it) == 0);
    WANT(BY_POINTER.copy(&it, &it) == ICU_LOCALE_DONE && BY_POINTER.extend(&it, &it) == ICU_LOCALE_DONE);
    WANT(icu_locale_cmp(&it, &it) == 0);
    WANT(icu_locale_copy(&it, &it) == ICU_LOCALE_DONE);
    WANT(is_text(&it, text));
    WANT(icu_locale_extend_unicode(&it, &it) == ICU_LOCALE_DONE);
    WANT(is_text(&it, text));
    icu_locale_free(&it);
}

static int order(const void *one, const void *other)
{
    return icu_locale_cmp((icu_locale_t *)(uintptr_t)one, (icu_locale_t *)(uintptr_t)other);
}

/* Sorts in place, and compares each place with itself, as some sorting routines do. */
static void sorting(void)
{
    icu_locale_t all[COUNT];
    for (size_t at = 0; at < COUNT; at++)
        all[at] = parsed(TEXTS[COUNT - 1 - at]);
    qsort(all, COUNT, sizeof *all, order);
    for (size_t at = 0; at < COUNT; at++)
        for (size_t other = 0; other < COUNT; other++)
            WANT((order(&all[at], &all[other]) > 0) - (order(&all[at], &all[other]) < 0) == (at > other) - (at < other));
    for (size_t at = 0; at < COUNT; at++)
        icu_locale_free(&all[at]);
}

/* Two handles, of the same locale and of another one. */
static void two(const char *text, const char *other)
{
    icu_locale_t it = parsed(text), like = parsed(text), unlike = parsed(other), made = ICU_LOCALE_UND;
    int8_t order = 9;
    WANT(icu_locale_eq(&it, &like) && BY_POINTER.eq(&it, &like) && BY_POINTER.cmp(&it, &like) == 0);
    WANT(!icu_locale_eq(&it, &unlike) && !BY_POINTER.eq(&it, &unlike));
    WANT(icu_locale_cmp(&it, &unlike) == -icu_locale_cmp(&unlike, &it) && icu_locale_cmp(&it, &unlike) != 0);
    WANT(BY_POINTER.cmp(&it, &unlike) == icu_locale_cmp(&it, &unlike));
    WANT(BY_POINTER.data_cmp(&it, &like, ICU_LOCALE_BY_REGION, &order) == ICU_LOCALE_DONE && order == 0);
    WANT(BY_POINTER.copy(&made, &it) == ICU_LOCALE_DONE && is_text(&made, text));
    WANT(BY_POINTER.extend(&made, &it) == ICU_LOCALE_DONE && is_text(&made, text));
    icu_locale_t *all[] = {&it, &like, &unlike, &made};
    for (size_t at = 0; at < 4; at++)
        icu_locale_free(all[at]);
}

int main(void)
{
    for (size_t at = 0; at < COUNT; at++)
        two(TEXTS[at], TEXTS[(at + 1) % COUNT]);
    for (size_t at = 0; at < COUNT; at++)
        itself(TEXTS[at]);
    sorting();
    printf("%lu\n", cases);
    return 0;
}
