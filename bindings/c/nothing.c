/* Gives nothing to each call of the header, for tools/try_bindings: handles that are {0}, and null pointers for texts of
 * length 0 and buffers without room. A handle is {0} after each call, as it still stands for und. Calls that only read
 * are also given handles in memory that cannot be written: one that is defined const, and one in a page of its own.
 *
 * The last line is the number of cases. The first that is not as wanted ends the program. */
#define _DEFAULT_SOURCE
#include "icu_locale.h"

#include <stdio.h>
#include <stdlib.h>
#include <string.h>
#include <sys/mman.h>

#define NONE NULL, 0
#define UNTOUCHED 77

static unsigned long cases;
static icu_locale_t und = ICU_LOCALE_UND, other = ICU_LOCALE_UND;
static const icu_locale_t constant = ICU_LOCALE_UND;
static const icu_locale_t *still; /* what calls that only read are given */
static size_t needed = UNTOUCHED;

#define WANT(it)                                                               \
    do {                                                                       \
        cases++;                                                               \
        if (!(it) || und.at != NULL || other.at != NULL) {                     \
            fprintf(stderr, "nothing.c:%d: not so: %s\n", __LINE__, #it);      \
            exit(1);                                                           \
        }                                                                      \
    } while (0)

/* What a call wants of a buffer that has no room: `room` bytes, or nothing where there is no such part. */
static int wants(icu_locale_status status, size_t room)
{
    int is_right = status == (room ? ICU_LOCALE_BUFFER_TOO_SMALL : ICU_LOCALE_NOT_FOUND) && needed == room;
    needed = UNTOUCHED;
    return is_right;
}

/* A part that is an empty text, so that a buffer without room is large enough. */
static int is_empty(icu_locale_status status)
{
    int is_right = status == ICU_LOCALE_DONE && needed == 0;
    needed = UNTOUCHED;
    return is_right;
}

static void try_texts(void)
{
    const uint8_t *en = (const uint8_t *)"EN";
    int8_t order = UNTOUCHED;
    uint8_t same = UNTOUCHED;
    size_t start = UNTOUCHED, end = UNTOUCHED;
    icu_locale_kinds kinds = UNTOUCHED;
    icu_locale_hint_number hint = UNTOUCHED;
    for (icu_locale_mode mode = ICU_LOCALE_IDENTIFIER; mode <= ICU_LOCALE_DATA_LOCALE; mode++) {
        WANT(icu_locale_check(mode, NONE) == ICU_LOCALE_INVALID_LANGUAGE);
        WANT(icu_locale_find_fault(mode, en, 2, &start, &end) == ICU_LOCALE_DONE);
        WANT(start == UNTOUCHED && end == UNTOUCHED);
        WANT(icu_locale_find_fault(mode, NONE, &start, &end) == ICU_LOCALE_INVALID_LANGUAGE);
        WANT(start == 0 && end == 0);
        WANT(icu_locale_expected(mode, NONE, 0, &kinds) == ICU_LOCALE_DONE && kinds == ICU_LOCALE_KIND_LANGUAGE);
        WANT(icu_locale_hint(mode, NONE, &hint) == ICU_LOCALE_DONE && hint == ICU_LOCALE_NO_HINT);
        WANT(icu_locale_normalize(mode, NONE, NONE, &needed) == ICU_LOCALE_INVALID_LANGUAGE && needed == 0);
        WANT(wants(icu_locale_normalize(mode, en, 2, NONE, &needed), 2));
        WANT(is_empty(icu_locale_normalize_lines(mode, NONE, NONE, &needed)));
        WANT(wants(icu_locale_normalize_lines(mode, en, 2, NONE, &needed), 3));
        WANT(icu_locale_strict_cmp(mode, NONE, NONE, &order) == ICU_LOCALE_INVALID_LANGUAGE && order == UNTOUCHED);
        WANT(icu_locale_normalizing_eq(mode, NONE, NONE, &same) == ICU_LOCALE_INVALID_LANGUAGE && same == UNTOUCHED);
        WANT(icu_locale_compare(mode, NONE, NONE, &order) == ICU_LOCALE_INVALID_LANGUAGE && order == UNTOUCHED);
        WANT(icu_locale_compare(mode, en, 2, NONE, &order) == ICU_LOCALE_INVALID_LANGUAGE && order == UNTOUCHED);
        WANT(icu_locale_strict_cmp(mode, en, 2, NONE, &order) == ICU_LOCALE_DONE && order == 1);
        WANT(icu_locale_normalizing_eq(mode, en, 2, NONE, &same) == ICU_LOCALE_DONE && same == 0);
        order = UNTOUCHED, same = UNTOUCHED, start = UNTOUCHED, end = UNTOUCHED, kinds = UNTOUCHED, hint = UNTOUCHED;
    }
    for (icu_locale_status status = ICU_LOCALE_DONE; status <= ICU_LOCALE_NOT_FOUND; status++) {
        WANT(icu_locale_words(status, NONE, &needed) == ICU_LOCALE_BUFFER_TOO_SMALL && needed > 0 && needed <= 64);
    }
    needed = UNTOUCHED;
    WANT(wants(icu_locale_expected_words(0, NONE, &needed), strlen("nothing")));
    WANT(icu_locale_hint_words(ICU_LOCALE_NO_HINT, NONE, &needed) == ICU_LOCALE_UNKNOWN_NUMBER && needed == 0);
    WANT(wants(icu_locale_hint_words(ICU_LOCALE_HINT_BLANKS, NONE, &needed), strlen("leave out the blanks")));
}

static void try_parts_of_texts(void)
{
    const uint8_t *en = (const uint8_t *)"EN";
    uint8_t same = UNTOUCHED;
    for (icu_locale_mode mode = ICU_LOCALE_IDENTIFIER; mode <= ICU_LOCALE_DATA_LOCALE; mode++) {
        WANT(icu_locale_language_of(mode, NONE, NONE, &needed) == ICU_LOCALE_INVALID_LANGUAGE && needed == 0);
        WANT(icu_locale_keyword_of(mode, NONE, NONE, NONE, &needed) == ICU_LOCALE_INVALID_LANGUAGE && needed == 0);
        WANT(wants(icu_locale_base_name_of(mode, en, 2, NONE, &needed), 2));
        WANT(wants(icu_locale_language_of(mode, en, 2, NONE, &needed), 2));
        WANT(is_empty(icu_locale_script_of(mode, en, 2, NONE, &needed)));
        WANT(is_empty(icu_locale_region_of(mode, en, 2, NONE, &needed)));
        WANT(is_empty(icu_locale_variants_of(mode, en, 2, NONE, &needed)));
        WANT(wants(icu_locale_keyword_of(mode, en, 2, NONE, NONE, &needed), 0));
        WANT(wants(icu_locale_parent(mode, en, 2, NONE, &needed), 3));
    }
    WANT(icu_locale_matches(NONE, NONE, &same) == ICU_LOCALE_INVALID_LANGUAGE && same == UNTOUCHED);
    WANT(icu_locale_matches(en, 2, NONE, &same) == ICU_LOCALE_INVALID_LANGUAGE && same == UNTOUCHED);
    WANT(is_empty(icu_locale_clean(NONE, NONE, &needed)));
    WANT(wants(icu_locale_clean(en, 2, NONE, &needed), 2));
}

static void try_whole(void)
{
    uint8_t same = UNTOUCHED;
    WANT(icu_locale_parse(&und, NONE) == ICU_LOCALE_INVALID_LANGUAGE);
    WANT(icu_locale_copy(&und, still) == ICU_LOCALE_DONE);
    WANT((icu_locale_free(&und), 1));
    WANT(icu_locale_is_und(still) && icu_locale_is_well_formed(still));
    WANT(icu_locale_cmp(still, &other) == 0 && icu_locale_eq(still, &other));
    WANT(icu_locale_cmp(&other, still) == 0 && icu_locale_eq(&other, still));
    WANT(icu_locale_cmp_bytes(still, NONE) == 1);
    WANT(icu_locale_eq_text(still, NONE, &same) == ICU_LOCALE_DONE && same == 0);
    /* FNV-1a of "und", by its description. */
    WANT(icu_locale_hash(still) == UINT64_C(0x4cadb3193e1996fa));
    WANT(wants(icu_locale_to_string(still, NONE, &needed), 3));
    WANT(wants(icu_locale_get_base_name(still, NONE, &needed), 3));
}

static void try_identifier(void)
{
    WANT(wants(icu_locale_get_language(still, NONE, &needed), 3));
    WANT(is_empty(icu_locale_get_script(still, NONE, &needed)));
    WANT(is_empty(icu_locale_get_region(still, NONE, &needed)));
    WANT(icu_locale_set_language(&und, NONE) == ICU_LOCALE_DONE);
    WANT(icu_locale_set_script(&und, NONE) == ICU_LOCALE_DONE);
    WANT(icu_locale_set_region(&und, NONE) == ICU_LOCALE_DONE);
    WANT(icu_locale_variant_count(still) == 0);
    WANT(wants(icu_locale_get_variant(still, 0, NONE, &needed), 0));
    WANT(!icu_locale_has_variant(still, NONE));
    WANT(icu_locale_add_variant(&und, NONE) == ICU_LOCALE_INVALID_SUBTAG);
    WANT(icu_locale_remove_variant(&und, NONE) == ICU_LOCALE_NOT_FOUND);
    WANT(icu_locale_clear_variants(&und) == ICU_LOCALE_DONE);
}

static void try_extensions(void)
{
    WANT(icu_locale_keyword_count(still) == 0);
    WANT(wants(icu_locale_get_keyword_key(still, 0, NONE, &needed), 0));
    WANT(wants(icu_locale_get_keyword_value(still, 0, NONE, &needed), 0));
    WANT(wants(icu_locale_get_keyword(still, NONE, NONE, &needed), 0));
    WANT(icu_locale_set_keyword(&und, NONE, NONE) == ICU_LOCALE_INVALID_EXTENSION);
    WANT(icu_locale_remove_keyword(&und, NONE) == ICU_LOCALE_NOT_FOUND);
    WANT(icu_locale_clear_keywords(&und) == ICU_LOCALE_DONE);
    WANT(icu_locale_attribute_count(still) == 0);
    WANT(wants(icu_locale_get_attribute(still, 0, NONE, &needed), 0));
    WANT(!icu_locale_has_attribute(still, NONE));
    WANT(icu_locale_add_attribute(&und, NONE) == ICU_LOCALE_INVALID_EXTENSION);
    WANT(icu_locale_remove_attribute(&und, NONE) == ICU_LOCALE_NOT_FOUND);
    WANT(icu_locale_clear_attributes(&und) == ICU_LOCALE_DONE);
    WANT(wants(icu_locale_get_transform_language(still, NONE, &needed), 0));
    WANT(icu_locale_set_transform_language(&und, NONE) == ICU_LOCALE_DONE);
    WANT(icu_locale_field_count(still) == 0);
    WANT(wants(icu_locale_get_field_key(still, 0, NONE, &needed), 0));
    WANT(wants(icu_locale_get_field_value(still, 0, NONE, &needed), 0));
    WANT(wants(icu_locale_get_field(still, NONE, NONE, &needed), 0));
    WANT(icu_locale_set_field(&und, NONE, NONE) == ICU_LOCALE_INVALID_EXTENSION);
    WANT(icu_locale_remove_field(&und, NONE) == ICU_LOCALE_NOT_FOUND);
    WANT(icu_locale_clear_fields(&und) == ICU_LOCALE_DONE);
    WANT(!icu_locale_has_other(still, 'a') && !icu_locale_has_other(still, 0));
    WANT(wants(icu_locale_get_other(still, 'a', NONE, &needed), 0));
    WANT(icu_locale_set_other(&und, NONE) == ICU_LOCALE_INVALID_EXTENSION);
    WANT(icu_locale_remove_other(&und, 'a') == ICU_LOCALE_NOT_FOUND);
    WANT(icu_locale_extend_unicode(&und, still) == ICU_LOCALE_DONE);
    WANT(is_empty(icu_locale_get_private(still, NONE, &needed)));
    WANT(icu_locale_set_private(&und, NONE) == ICU_LOCALE_DONE);
}

static void try_data_locales(void)
{
    int8_t order = UNTOUCHED;
    for (icu_locale_priority priority = ICU_LOCALE_BY_LANGUAGE; priority <= ICU_LOCALE_BY_REGION; priority++) {
        WANT(wants(icu_locale_get_data_locale(still, priority, NONE, &needed), 3));
        WANT(icu_locale_data_cmp_bytes(still, priority, NONE, &order) == ICU_LOCALE_DONE && order == 1);
        WANT(icu_locale_data_cmp(still, &other, priority, &order) == ICU_LOCALE_DONE && order == 0);
        order = UNTOUCHED;
        WANT(icu_locale_data_cmp(&other, still, priority, &order) == ICU_LOCALE_DONE && order == 0);
        order = UNTOUCHED;
    }
    WANT(icu_locale_get_data_locale(still, 2, NONE, &needed) == ICU_LOCALE_UNKNOWN_NUMBER && needed == 0);
    WANT(icu_locale_data_cmp_bytes(still, 2, NONE, &order) == ICU_LOCALE_UNKNOWN_NUMBER && order == UNTOUCHED);
    WANT(icu_locale_data_cmp(still, &other, 2, &order) == ICU_LOCALE_UNKNOWN_NUMBER && order == UNTOUCHED);
    WANT(wants(icu_locale_get_calendar_algorithm(still, NONE, &needed), 0));
    WANT(wants(icu_locale_get_hour_cycle(still, NONE, &needed), 0));
    WANT(wants(icu_locale_get_numbering_system(still, NONE, &needed), 0));
}

static void try_each(const icu_locale_t *given)
{
    still = given;
    try_texts();
    try_parts_of_texts();
    try_whole();
    try_identifier();
    try_extensions();
    try_data_locales();
}

int main(void)
{
    const icu_locale_t *page = mmap(NULL, sizeof *page, PROT_READ, MAP_PRIVATE | MAP_ANONYMOUS, -1, 0);
    WANT(page != MAP_FAILED && icu_locale_version() == ICU_LOCALE_VERSION);
    try_each(&und);
    try_each(&constant);
    try_each(page);
    printf("%lu\n", cases);
    return 0;
}
