/* Prints the normal text of each argument as a locale, or why there is none:
 *
 *     $ example en-us-u-CA-Buddhist en-
 *     en-US-u-ca-buddhist
 *     en-: Invalid subtag
 */
#include "icu_locale.h"

#include <stdio.h>
#include <stdlib.h>
#include <string.h>

/* Returns the normal text, which the caller frees, or NULL and why there is none. */
static char *normalize(const char *text, icu_locale_status *status)
{
    const uint8_t *bytes = (const uint8_t *)text;
    uint8_t small[64];
    size_t needed;
    *status = icu_locale_normalize(ICU_LOCALE_LOCALE, bytes, strlen(text), small, sizeof small, &needed);
    if (*status != ICU_LOCALE_DONE && *status != ICU_LOCALE_BUFFER_TOO_SMALL)
        return NULL;
    char *normal = malloc(needed + 1);
    if (normal == NULL) {
        *status = ICU_LOCALE_OUT_OF_MEMORY;
        return NULL;
    }
    if (*status == ICU_LOCALE_DONE)
        memcpy(normal, small, needed);
    else
        *status = icu_locale_normalize(ICU_LOCALE_LOCALE, bytes, strlen(text), (uint8_t *)normal, needed, &needed);
    normal[needed] = '\0';
    return normal;
}

int main(int count, char **words)
{
    int failed = icu_locale_version() != ICU_LOCALE_VERSION;
    for (int i = 1; i < count; i++) {
        icu_locale_status status;
        char *normal = normalize(words[i], &status);
        if (status == ICU_LOCALE_DONE) {
            puts(normal);
        } else {
            uint8_t why[64];
            size_t length;
            icu_locale_words(status, why, sizeof why, &length);
            printf("%s: %.*s\n", words[i], (int)length, (const char *)why);
            failed = 1;
        }
        free(normal);
    }
    return failed;
}
