/* Gives each line of standard input to the calls, in places whose next byte may not be touched, for tools/try_bindings.
 *
 * Texts can only be read, and end before such a byte, or begin behind one. Buffers have exactly the room that is needed,
 * and end before one; so do handles and out-pointers. The library's blocks are those of guarding.c, with which it is
 * linked. Each call is to answer as it does elsewhere: `normalize` and `to_string` as in a large buffer, and each part of
 * a locale set from its own text again. The last line is the number of cases; the first that is not as wanted ends the
 * program. */
#include "guarding.h"
#include "icu_locale.h"
#include "wanted.h"

#include <stdio.h>
#include <stdlib.h>
#include <string.h>

#define LINE 262144
#define UNTOUCHED 99

struct text {
    uint8_t *at;
    size_t length;
};

static uint8_t line[LINE], large[LINE + 8];
static size_t *needed, *start, *end;
static int8_t *order;
static uint8_t *same;
static icu_locale_kinds *kinds;
static icu_locale_hint_number *hint;

/* A text in a place of its own: of two lines one ends before what may not be touched, and one begins behind it. */
static struct text placed(const uint8_t *bytes, size_t length)
{
    static int is_before;
    is_before = !is_before;
    struct text made = {is_before ? guarding_before(length) : guarding_behind(length), length};
    memcpy(made.at, bytes, length);
    guarding_seal(made.at);
    return made;
}

static icu_locale_t *handle(void)
{
    icu_locale_t *made = guarding_before(sizeof *made);
    made->at = NULL;
    return made;
}

static void end_handle(icu_locale_t *it)
{
    icu_locale_free(it);
    WANT(it->at == NULL);
    guarding_end(it);
}

/* The normal form in a buffer that just fits, and the one that is a byte too small. */
static void look_at_normal(icu_locale_mode mode, struct text text)
{
    size_t length = UNTOUCHED;
    icu_locale_status status = icu_locale_normalize(mode, text.at, text.length, large, sizeof large, &length);
    uint8_t *buffer = guarding_before(length);
    WANT(icu_locale_normalize(mode, text.at, text.length, buffer, length, needed) == status && *needed == length);
    WANT(memcmp(buffer, large, length) == 0);
    if (length > 0)
        WANT(icu_locale_normalize(mode, text.at, text.length, buffer + 1, length - 1, needed)
            == ICU_LOCALE_BUFFER_TOO_SMALL && *needed == length);
    WANT(icu_locale_check(mode, text.at, text.length) == status);
    guarding_end(buffer);
}

/* Words in a buffer that just fits. */
static void look_at_words(icu_locale_status (*call)(uint32_t, uint8_t *, size_t, size_t *), uint32_t number)
{
    (void)call(number, large, 0, needed);
    size_t length = *needed;
    uint8_t *buffer = guarding_before(length);
    WANT(length > 0 && call(number, buffer, length, needed) == ICU_LOCALE_DONE && *needed == length);
    guarding_end(buffer);
}

/* Something may stand where a text is refused, and a text that has a meaning may end at its end; it has no hint. */
static void look_at_advice(icu_locale_mode mode, struct text text, size_t place, int is_refused)
{
    WANT(icu_locale_expected(mode, text.at, text.length, place, kinds) == ICU_LOCALE_DONE);
    WANT(is_refused ? *kinds > 0 && *kinds < 2 * ICU_LOCALE_KIND_END : *kinds & ICU_LOCALE_KIND_END);
    WANT(icu_locale_hint(mode, text.at, text.length, hint) == ICU_LOCALE_DONE);
    WANT(is_refused ? *hint <= ICU_LOCALE_HINT_UNDERSCORES : *hint == ICU_LOCALE_NO_HINT);
    look_at_words(icu_locale_expected_words, *kinds);
    if (*hint != ICU_LOCALE_NO_HINT)
        look_at_words(icu_locale_hint_words, *hint);
}

/* The same of a text that is one line, as the only one. */
static void look_at_lines(icu_locale_mode mode, struct text text)
{
    size_t alone = UNTOUCHED, length = UNTOUCHED;
    WANT(icu_locale_normalize_lines(mode, text.at, text.length, large, sizeof large, &length) == ICU_LOCALE_DONE);
    uint8_t *buffer = guarding_before(length);
    WANT(icu_locale_normalize_lines(mode, text.at, text.length, buffer, length, needed) == ICU_LOCALE_DONE);
    WANT(*needed == length && memcmp(buffer, large, length) == 0);
    if (length > 0)
        WANT(icu_locale_normalize_lines(mode, text.at, text.length, buffer + 1, length - 1, needed)
            == ICU_LOCALE_BUFFER_TOO_SMALL && *needed == length);
    icu_locale_status status = icu_locale_normalize(mode, text.at, text.length, large, sizeof large, &alone);
    if (text.length == 0)
        WANT(length == 0);
    else if (status != ICU_LOCALE_DONE)
        WANT(length > 2 && buffer[0] == '!' && buffer[1] == ' ' && buffer[length - 1] == '\n');
    else
        WANT(length == alone + 1 && memcmp(buffer, large, alone) == 0 && buffer[alone] == '\n');
    guarding_end(buffer);
}

/* The place of the fault is a piece of the text, or its end. */
static void look_at_fault(icu_locale_mode mode, struct text text)
{
    *start = UNTOUCHED, *end = UNTOUCHED;
    icu_locale_status status = icu_locale_find_fault(mode, text.at, text.length, start, end);
    WANT(status == icu_locale_check(mode, text.at, text.length));
    if (status == ICU_LOCALE_DONE) {
        WANT(*start == UNTOUCHED && *end == UNTOUCHED);
        look_at_advice(mode, text, text.length, 0);
        return;
    }
    look_at_advice(mode, text, *start, 1);
    WANT(*start <= *end && *end <= text.length);
    WANT(*start == 0 || text.at[*start - 1] == '-' || *start == text.length);
    WANT(*end == text.length || text.at[*end] == '-');
    WANT(*start == *end || memchr(text.at + *start, '-', *end - *start) == NULL);
}

static void look_at_two(icu_locale_mode mode, struct text text, struct text other)
{
    icu_locale_status status = icu_locale_check(mode, text.at, text.length);
    *order = UNTOUCHED, *same = UNTOUCHED;
    WANT(icu_locale_strict_cmp(mode, text.at, text.length, other.at, other.length, order) == status);
    WANT((*order == UNTOUCHED) == (status != ICU_LOCALE_DONE));
    WANT(icu_locale_normalizing_eq(mode, text.at, text.length, other.at, other.length, same) == status);
    WANT((*same == UNTOUCHED) == (status != ICU_LOCALE_DONE));
    *order = UNTOUCHED;
    status = status == ICU_LOCALE_DONE ? icu_locale_check(mode, other.at, other.length) : status;
    WANT(icu_locale_compare(mode, text.at, text.length, other.at, other.length, order) == status);
    WANT(status != ICU_LOCALE_DONE || (*order == 0) == (*same == 1));
}

typedef icu_locale_status (*reading)(const icu_locale_t *, uint8_t *, size_t, size_t *);
typedef icu_locale_status (*reading_at)(const icu_locale_t *, size_t, uint8_t *, size_t, size_t *);
typedef icu_locale_status (*setting)(icu_locale_t *, const uint8_t *, size_t);

/* The text of a part, read into a buffer that just fits, and then placed. */
static struct text part(icu_locale_t *it, reading call)
{
    icu_locale_status status = call(it, NULL, 0, needed);
    size_t length = *needed;
    WANT(status == (length ? ICU_LOCALE_BUFFER_TOO_SMALL : status) && status != ICU_LOCALE_OUT_OF_MEMORY);
    uint8_t *buffer = guarding_before(length);
    status = call(it, buffer, length, needed);
    WANT(*needed == length && status == (length || status == ICU_LOCALE_DONE ? ICU_LOCALE_DONE : ICU_LOCALE_NOT_FOUND));
    struct text made = placed(buffer, length);
    guarding_end(buffer);
    return made;
}

static reading_at now_call;
static size_t now_index;

static icu_locale_status at_index(const icu_locale_t *it, uint8_t *buffer, size_t room, size_t *length)
{
    return now_call(it, now_index, buffer, room, length);
}

static struct text item(icu_locale_t *it, reading_at call, size_t index)
{
    now_call = call, now_index = index;
    return part(it, at_index);
}

static void set_again(icu_locale_t *it, icu_locale_t *made, reading read, setting set)
{
    struct text text = part(it, read);
    WANT(set(made, text.at, text.length) == ICU_LOCALE_DONE);
    guarding_end(text.at);
}

/* Each variant or attribute is set in the other locale. */
static void set_words(icu_locale_t *it, icu_locale_t *made, size_t count, reading_at read, setting add)
{
    for (size_t at = 0; at < count; at++) {
        struct text text = item(it, read, count - 1 - at);
        WANT(add(made, text.at, text.length) == ICU_LOCALE_DONE);
        guarding_end(text.at);
    }
    WANT(read(it, count, NULL, 0, needed) == ICU_LOCALE_NOT_FOUND && *needed == 0);
}

typedef icu_locale_status (*putting)(icu_locale_t *, const uint8_t *, size_t, const uint8_t *, size_t);

static void set_pairs(icu_locale_t *it, icu_locale_t *made, size_t count, reading_at keys, reading_at values, putting put)
{
    for (size_t at = 0; at < count; at++) {
        struct text key = item(it, keys, at), value = item(it, values, at);
        WANT(put(made, key.at, key.length, value.at, value.length) == ICU_LOCALE_DONE);
        guarding_end(key.at);
        guarding_end(value.at);
    }
}

static void set_others(icu_locale_t *it, icu_locale_t *made)
{
    for (const char *at = "0123456789abcdefghijklmnopqrsvwyz"; *at; at++) {
        if (!icu_locale_has_other(it, (uint8_t)*at))
            continue;
        WANT(icu_locale_get_other(it, (uint8_t)*at, large, sizeof large, needed) == ICU_LOCALE_DONE);
        struct text text = placed(large, *needed);
        WANT(icu_locale_set_other(made, text.at, text.length) == ICU_LOCALE_DONE);
        guarding_end(text.at);
    }
}

/* Another locale of the same parts, each set from its text, is equal. */
static void look_at_parts(icu_locale_t *it)
{
    icu_locale_t *made = handle();
    set_words(it, made, icu_locale_attribute_count(it), icu_locale_get_attribute, icu_locale_add_attribute);
    set_pairs(it, made, icu_locale_keyword_count(it), icu_locale_get_keyword_key, icu_locale_get_keyword_value,
        icu_locale_set_keyword);
    set_others(it, made);
    set_again(it, made, icu_locale_get_transform_language, icu_locale_set_transform_language);
    set_pairs(it, made, icu_locale_field_count(it), icu_locale_get_field_key, icu_locale_get_field_value,
        icu_locale_set_field);
    set_again(it, made, icu_locale_get_private, icu_locale_set_private);
    set_words(it, made, icu_locale_variant_count(it), icu_locale_get_variant, icu_locale_add_variant);
    set_again(it, made, icu_locale_get_region, icu_locale_set_region);
    set_again(it, made, icu_locale_get_script, icu_locale_set_script);
    set_again(it, made, icu_locale_get_language, icu_locale_set_language);
    WANT(icu_locale_eq(it, made) && icu_locale_cmp(it, made) == 0 && icu_locale_hash(it) == icu_locale_hash(made));
    WANT(icu_locale_copy(made, it) == ICU_LOCALE_DONE && icu_locale_extend_unicode(made, it) == ICU_LOCALE_DONE);
    WANT(icu_locale_eq(it, made));
    for (icu_locale_priority by = ICU_LOCALE_BY_LANGUAGE; by <= ICU_LOCALE_BY_REGION; by++) {
        WANT(icu_locale_get_data_locale(it, by, large, sizeof large, needed) == ICU_LOCALE_DONE);
        struct text text = placed(large, *needed);
        WANT(icu_locale_data_cmp_bytes(made, by, text.at, text.length, order) == ICU_LOCALE_DONE && *order == 0);
        WANT(icu_locale_data_cmp(it, made, by, order) == ICU_LOCALE_DONE && *order == 0);
        guarding_end(text.at);
    }
    end_handle(made);
}

/* Refused or not: the words of a text are given to each call that sets or asks, which answers and touches nothing else. */
static void give_to_each(icu_locale_t *it, struct text text)
{
    static const setting calls[] = {icu_locale_set_language, icu_locale_set_script, icu_locale_set_region,
        icu_locale_add_variant, icu_locale_remove_variant, icu_locale_add_attribute, icu_locale_remove_attribute,
        icu_locale_remove_keyword, icu_locale_set_transform_language, icu_locale_set_private, icu_locale_set_other,
        icu_locale_remove_field};
    for (size_t at = 0; at < sizeof calls / sizeof *calls; at++)
        WANT(calls[at](it, text.at, text.length) != ICU_LOCALE_OUT_OF_MEMORY);
    WANT(icu_locale_set_keyword(it, text.at, text.length, text.at, text.length) != ICU_LOCALE_OUT_OF_MEMORY);
    WANT(icu_locale_set_field(it, text.at, text.length, text.at, text.length) != ICU_LOCALE_OUT_OF_MEMORY);
    WANT(icu_locale_has_variant(it, text.at, text.length) + icu_locale_has_attribute(it, text.at, text.length) <= 2);
    WANT(icu_locale_cmp_bytes(it, text.at, text.length) >= -1);
    WANT(icu_locale_get_keyword(it, text.at, text.length, NULL, 0, needed) != ICU_LOCALE_OUT_OF_MEMORY);
    WANT(icu_locale_get_field(it, text.at, text.length, NULL, 0, needed) != ICU_LOCALE_OUT_OF_MEMORY);
}

static void look_at_locale(struct text text)
{
    icu_locale_t *it = handle();
    icu_locale_status status = icu_locale_check(ICU_LOCALE_LOCALE, text.at, text.length);
    WANT(icu_locale_parse(it, text.at, text.length) == status);
    if (status == ICU_LOCALE_DONE) {
        struct text normal = part(it, icu_locale_to_string);
        WANT(icu_locale_normalize(ICU_LOCALE_LOCALE, text.at, text.length, large, sizeof large, needed) == status);
        WANT(*needed == normal.length && memcmp(large, normal.at, normal.length) == 0);
        WANT(icu_locale_cmp_bytes(it, normal.at, normal.length) == 0);
        WANT(icu_locale_eq_text(it, text.at, text.length, same) == ICU_LOCALE_DONE && *same == 1);
        guarding_end(normal.at);
        look_at_parts(it);
    }
    give_to_each(it, text);
    end_handle(it);
    WANT(guarding_live() == 0);
}

static int read_line(size_t *length)
{
    int byte;
    *length = 0;
    while ((byte = getchar()) != EOF && byte != '\n' && *length < LINE)
        line[(*length)++] = (uint8_t)byte;
    return byte == '\n' || *length > 0;
}

int main(void)
{
    size_t length;
    struct text before = placed(line, 0);
    start = guarding_before(sizeof *start), end = guarding_before(sizeof *end);
    needed = guarding_before(sizeof *needed), order = guarding_before(1), same = guarding_before(1);
    kinds = guarding_before(sizeof *kinds), hint = guarding_before(sizeof *hint);
    while (read_line(&length)) {
        struct text text = placed(line, length);
        for (icu_locale_mode mode = ICU_LOCALE_IDENTIFIER; mode <= ICU_LOCALE_DATA_LOCALE; mode++) {
            look_at_normal(mode, text);
            look_at_lines(mode, text);
            look_at_fault(mode, text);
            look_at_two(mode, text, before);
            look_at_two(mode, before, text);
        }
        look_at_locale(text);
        guarding_end(before.at);
        before = text;
    }
    printf("%lu\n", cases);
    return 0;
}
