/* Prints each argument as a locale in Britain's form, with the Buddhist calendar, or why it is none:
 *
 *     $ change en-us en-
 *     en-GB-u-ca-buddhist
 *     en-: Invalid subtag
 */
#include "icu_locale.h"

#include <stdio.h>
#include <string.h>

#define TEXT(it) (const uint8_t *)(it), strlen(it)

/* Changes the locale, and writes its normal form to the buffer. */
static icu_locale_status change(icu_locale_t *locale, const char *text, uint8_t *buffer, size_t room, size_t *needed)
{
    icu_locale_status status = icu_locale_parse(locale, TEXT(text));
    if (status == ICU_LOCALE_DONE)
        status = icu_locale_set_region(locale, TEXT("GB"));
    if (status == ICU_LOCALE_DONE)
        status = icu_locale_set_keyword(locale, TEXT("ca"), TEXT("buddhist"));
    if (status == ICU_LOCALE_DONE)
        status = icu_locale_to_string(locale, buffer, room, needed);
    return status;
}

int main(int count, char **words)
{
    int failed = icu_locale_version() != ICU_LOCALE_VERSION;
    icu_locale_t locale = ICU_LOCALE_UND;
    for (int i = 1; i < count; i++) {
        uint8_t text[256], why[64];
        size_t length;
        icu_locale_status status = change(&locale, words[i], text, sizeof text, &length);
        if (status == ICU_LOCALE_DONE) {
            printf("%.*s\n", (int)length, (const char *)text);
        } else {
            icu_locale_words(status, why, sizeof why, &length);
            printf("%s: %.*s\n", words[i], (int)length, (const char *)why);
            failed = 1;
        }
    }
    icu_locale_free(&locale);
    return failed;
}
