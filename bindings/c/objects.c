/* Answers each line of standard input with a locale that it holds, for tools/try_bindings, as bindings/cpp/answers.cpp does.
 *
 * objects objects       all parts of the locale that the line means, or "! " and the words of the refusal
 * objects two-objects   of each two lines the order of both locales, whether they are equal and are hashed alike, the byte
 *                       order of the first against the second line, and whether that line means it
 * objects script        what each step on one of four locales gives, and the text of the locale after it; all its parts are
 *                       read, with too little room too, and are those of that text
 *
 * Fields stand between tabs. tools/object_model.py says what is wanted. */
#include "icu_locale.h"
#include "lines.h"

#include <inttypes.h>
#include <stdio.h>
#include <stdlib.h>
#include <string.h>

typedef icu_locale_status (*reading)(const icu_locale_t *, uint8_t *, size_t, size_t *);
typedef icu_locale_status (*reading_at)(const icu_locale_t *, size_t, uint8_t *, size_t, size_t *);

static void stop(const char *why)
{
    fprintf(stderr, "objects: %s\n", why);
    exit(1);
}

static size_t replied;

/* What a call that writes a text is given: the reply, and how long it is. */
#define REPLY reply, sizeof reply, &replied

static void write_part(icu_locale_status status)
{
    if (status != ICU_LOCALE_DONE)
        stop("a part is not there");
    printf("%.*s", (int)replied, (const char *)reply);
}

static void write_refusal(icu_locale_status status)
{
    fputs("! ", stdout);
    write_part(icu_locale_words(status, REPLY));
}

static void write_field(icu_locale_t *locale, reading call)
{
    write_part(call(locale, REPLY));
    putchar('\t');
}

static void write_list(icu_locale_t *locale, size_t count, reading_at call, reading_at value)
{
    for (size_t at = 0; at < count; at++) {
        if (at > 0)
            putchar(',');
        write_part(call(locale, at, REPLY));
        if (value != NULL) {
            putchar('=');
            write_part(value(locale, at, REPLY));
        }
    }
    putchar('\t');
}

static void write_transform_language(icu_locale_t *locale)
{
    icu_locale_status status = icu_locale_get_transform_language(locale, REPLY);
    write_part(status == ICU_LOCALE_NOT_FOUND && replied == 0 ? ICU_LOCALE_DONE : status);
    putchar('\t');
}

static void write_others(icu_locale_t *locale)
{
    int is_first = 1;
    for (const char *at = "0123456789abcdefghijklmnopqrstuvwxyz"; *at; at++) {
        icu_locale_status status = icu_locale_get_other(locale, (uint8_t)*at, REPLY);
        if (icu_locale_has_other(locale, (uint8_t)*at) != (status == ICU_LOCALE_DONE))
            stop("another extension is there, and is not");
        if (status == ICU_LOCALE_NOT_FOUND)
            continue;
        if (!is_first)
            putchar(',');
        is_first = 0;
        write_part(status);
    }
    putchar('\t');
}

static void write_data_locale(icu_locale_t *locale, icu_locale_priority priority)
{
    write_part(icu_locale_get_data_locale(locale, priority, REPLY));
    putchar('\t');
}

static void write_preference(icu_locale_t *locale, reading call)
{
    icu_locale_status status = call(locale, REPLY);
    if (status == ICU_LOCALE_NOT_FOUND)
        putchar('-');
    else
        write_part(status);
    putchar('\t');
}

static void write_parts(icu_locale_t *locale)
{
    write_field(locale, icu_locale_to_string);
    write_field(locale, icu_locale_get_base_name);
    write_field(locale, icu_locale_get_language);
    write_field(locale, icu_locale_get_script);
    write_field(locale, icu_locale_get_region);
    write_list(locale, icu_locale_variant_count(locale), icu_locale_get_variant, NULL);
    write_list(locale, icu_locale_attribute_count(locale), icu_locale_get_attribute, NULL);
    write_list(locale, icu_locale_keyword_count(locale), icu_locale_get_keyword_key, icu_locale_get_keyword_value);
    write_transform_language(locale);
    write_list(locale, icu_locale_field_count(locale), icu_locale_get_field_key, icu_locale_get_field_value);
    write_field(locale, icu_locale_get_private);
    write_others(locale);
    write_data_locale(locale, ICU_LOCALE_BY_LANGUAGE);
    write_data_locale(locale, ICU_LOCALE_BY_REGION);
    write_preference(locale, icu_locale_get_calendar_algorithm);
    write_preference(locale, icu_locale_get_hour_cycle);
    write_preference(locale, icu_locale_get_numbering_system);
    printf("%d%d\t%016" PRIx64, icu_locale_is_und(locale), icu_locale_is_well_formed(locale), icu_locale_hash(locale));
}

static void answer_objects(void)
{
    icu_locale_t locale = ICU_LOCALE_UND;
    while (read_line(&first)) {
        icu_locale_status status = icu_locale_parse(&locale, first.bytes, first.length);
        if (status == ICU_LOCALE_DONE)
            write_parts(&locale);
        else
            write_refusal(status);
        putchar('\n');
    }
    icu_locale_free(&locale);
}

/* The order of two locales, whether they are equal, and whether they are hashed alike. */
static void write_order(icu_locale_t *one, icu_locale_t *other)
{
    int8_t order = icu_locale_cmp(one, other);
    if (order != -icu_locale_cmp(other, one))
        stop("an order that is not that of the other way round");
    printf("%d %d %d", order, icu_locale_eq(one, other), icu_locale_hash(one) == icu_locale_hash(other));
}

/* The byte order of a locale against a text, and whether the text means it. */
static void write_against(icu_locale_t *locale, const uint8_t *text, size_t length)
{
    uint8_t same = 9;
    if (icu_locale_eq_text(locale, text, length, &same) != ICU_LOCALE_DONE)
        stop("a text was not compared");
    printf("%d %d", icu_locale_cmp_bytes(locale, text, length), same);
}

static void answer_two(void)
{
    icu_locale_t one = ICU_LOCALE_UND, other = ICU_LOCALE_UND;
    while (read_line(&first) && read_line(&second)) {
        icu_locale_status status = icu_locale_parse(&one, first.bytes, first.length);
        if (status != ICU_LOCALE_DONE) {
            write_refusal(status);
            putchar('\n');
            continue;
        }
        if (icu_locale_parse(&other, second.bytes, second.length) == ICU_LOCALE_DONE)
            write_order(&one, &other);
        else
            fputs("- - -", stdout);
        putchar(' ');
        write_against(&one, second.bytes, second.length);
        putchar('\n');
    }
    icu_locale_free(&one);
    icu_locale_free(&other);
}

/* Scripts: each line is a call, the number of a locale, and texts. */

#define SLOTS 4
#define WORDS 4

struct text {
    const uint8_t *bytes;
    size_t length;
};

static icu_locale_t slots[SLOTS];

/* Calls that change a locale, by what they take; and questions. */
static const struct {
    const char *name;
    icu_locale_status (*call)(icu_locale_t *, const uint8_t *, size_t);
} settings[] = {
    {"parse", icu_locale_parse},
    {"language", icu_locale_set_language},
    {"script", icu_locale_set_script},
    {"region", icu_locale_set_region},
    {"add-variant", icu_locale_add_variant},
    {"remove-variant", icu_locale_remove_variant},
    {"add-attribute", icu_locale_add_attribute},
    {"remove-attribute", icu_locale_remove_attribute},
    {"remove-keyword", icu_locale_remove_keyword},
    {"transform-language", icu_locale_set_transform_language},
    {"remove-field", icu_locale_remove_field},
    {"private", icu_locale_set_private},
    {"set-other", icu_locale_set_other},
};

static const struct {
    const char *name;
    icu_locale_status (*call)(icu_locale_t *);
} clearings[] = {
    {"clear-variants", icu_locale_clear_variants},
    {"clear-attributes", icu_locale_clear_attributes},
    {"clear-keywords", icu_locale_clear_keywords},
    {"clear-fields", icu_locale_clear_fields},
};

static const struct {
    const char *name;
    bool (*call)(const icu_locale_t *, const uint8_t *, size_t);
} questions[] = {
    {"has-variant", icu_locale_has_variant},
    {"has-attribute", icu_locale_has_attribute},
};

static const struct {
    const char *set, *get;
    icu_locale_status (*setting)(icu_locale_t *, const uint8_t *, size_t, const uint8_t *, size_t);
    icu_locale_status (*getting)(const icu_locale_t *, const uint8_t *, size_t, uint8_t *, size_t, size_t *);
} maps[] = {
    {"set-keyword", "get-keyword", icu_locale_set_keyword, icu_locale_get_keyword},
    {"set-field", "get-field", icu_locale_set_field, icu_locale_get_field},
};

#define COUNT(table) (sizeof table / sizeof *table)

static int is_word(const struct text *text, const char *word)
{
    return text->length == strlen(word) && memcmp(text->bytes, word, text->length) == 0;
}

static int write_status(icu_locale_status status)
{
    if (status == ICU_LOCALE_DONE)
        fputs("ok", stdout);
    else if (status == ICU_LOCALE_NOT_FOUND)
        fputs("none", stdout);
    else
        write_refusal(status);
    return 1;
}

/* The value of a key, or of a singleton, if it is there. */
static int write_value(icu_locale_status status)
{
    if (status != ICU_LOCALE_DONE)
        return write_status(status);
    putchar('=');
    write_part(status);
    return 1;
}

static int take_change(icu_locale_t *at, const struct text *words)
{
    const struct text *call = &words[0], *text = &words[2], *value = &words[3];
    for (size_t i = 0; i < COUNT(settings); i++)
        if (is_word(call, settings[i].name))
            return write_status(settings[i].call(at, text->bytes, text->length));
    for (size_t i = 0; i < COUNT(clearings); i++)
        if (is_word(call, clearings[i].name))
            return write_status(clearings[i].call(at));
    for (size_t i = 0; i < COUNT(maps); i++)
        if (is_word(call, maps[i].set))
            return write_status(maps[i].setting(at, text->bytes, text->length, value->bytes, value->length));
    return 0;
}

static uint8_t singleton(const struct text *text)
{
    if (text->length != 1)
        stop("a step names no singleton");
    return text->bytes[0];
}

static int take_question(icu_locale_t *at, const struct text *words)
{
    const struct text *call = &words[0], *text = &words[2];
    for (size_t i = 0; i < COUNT(questions); i++)
        if (is_word(call, questions[i].name))
            return printf("%d", questions[i].call(at, text->bytes, text->length));
    for (size_t i = 0; i < COUNT(maps); i++)
        if (is_word(call, maps[i].get))
            return write_value(maps[i].getting(at, text->bytes, text->length, REPLY));
    if (is_word(call, "get-other"))
        return write_value(icu_locale_get_other(at, singleton(text), REPLY));
    if (is_word(call, "remove-other"))
        return write_status(icu_locale_remove_other(at, singleton(text)));
    if (is_word(call, "against"))
        write_against(at, text->bytes, text->length);
    else if (is_word(call, "parts"))
        write_parts(at);
    else
        return 0;
    return 1;
}

static icu_locale_t *slot(const struct text *number)
{
    if (number->length != 1 || number->bytes[0] < '0' || number->bytes[0] >= '0' + SLOTS)
        stop("a step names no locale");
    return &slots[number->bytes[0] - '0'];
}

/* The order of the data locales of both, by each priority, and of that of the first against the text of the other's. */
static void write_data_orders(icu_locale_t *one, icu_locale_t *other)
{
    static const icu_locale_priority priorities[] = {ICU_LOCALE_BY_LANGUAGE, ICU_LOCALE_BY_REGION};
    for (size_t i = 0; i < COUNT(priorities); i++) {
        int8_t order = 9, back = 9, against = 9;
        icu_locale_status status = icu_locale_get_data_locale(other, priorities[i], REPLY);
        if (status != ICU_LOCALE_DONE || icu_locale_data_cmp(one, other, priorities[i], &order) != ICU_LOCALE_DONE
            || icu_locale_data_cmp(other, one, priorities[i], &back) != ICU_LOCALE_DONE || order != -back
            || icu_locale_data_cmp_bytes(one, priorities[i], reply, replied, &against) != ICU_LOCALE_DONE)
            stop("data locales were not compared");
        printf("%s%d %d", i == 0 ? "" : " ", order, against);
    }
}

/* A handle is moved by its bytes: the place that it leaves stands for und. */
static void move(icu_locale_t *to, icu_locale_t *from)
{
    static const icu_locale_t und = ICU_LOCALE_UND;
    icu_locale_t moved = *from;
    *from = und;
    icu_locale_free(to);
    *to = moved;
}

static void call_two(icu_locale_t *at, icu_locale_t *other, const struct text *call)
{
    if (is_word(call, "copy"))
        write_status(icu_locale_copy(at, other));
    else if (is_word(call, "extend"))
        write_status(icu_locale_extend_unicode(at, other));
    else if (is_word(call, "compare"))
        write_order(at, other);
    else if (is_word(call, "compare-data"))
        write_data_orders(at, other);
    else if (is_word(call, "move"))
        move(at, other), write_status(ICU_LOCALE_DONE);
    else
        stop("no such step");
}

/* A call takes two handles only if they differ: a locale meets itself as a copy. */
static void take_two(icu_locale_t *at, const struct text *words)
{
    icu_locale_t *other = slot(&words[2]), twin = ICU_LOCALE_UND;
    if (other != at) {
        call_two(at, other, &words[0]);
        return;
    }
    if (icu_locale_copy(&twin, at) != ICU_LOCALE_DONE)
        stop("a locale was not copied");
    call_two(at, &twin, &words[0]);
    icu_locale_free(&twin);
}

/* Reads a part into the reply. Less room than it needs is left as it was, and so is what stands behind enough. */
static void read_part(icu_locale_t *locale, reading call)
{
    static uint8_t room[LINE + 1];
    size_t needed = 77;
    icu_locale_status status = call(locale, REPLY);
    if (status == ICU_LOCALE_NOT_FOUND ? replied != 0 : status != ICU_LOCALE_DONE)
        stop("a part is not there");
    if (replied == 0) {
        if (call(locale, NULL, 0, &needed) != status || needed != 0)
            stop("an empty part needs room");
        return;
    }
    memset(room, '#', replied + 1);
    if (call(locale, room, replied - 1, &needed) != ICU_LOCALE_BUFFER_TOO_SMALL || needed != replied
        || room[0] != '#' || memcmp(room, room + 1, replied) != 0)
        stop("too little room was written to");
    if (call(locale, room, replied, &needed) != ICU_LOCALE_DONE || needed != replied
        || memcmp(room, reply, replied) != 0 || room[replied] != '#')
        stop("a part is written otherwise, or too far");
}

/* Stops unless a call on a text, which ended so, gave what stands in the reply. */
static void is_reply(icu_locale_status status, const uint8_t *part, const size_t *length)
{
    if (status != ICU_LOCALE_DONE || *length != replied || memcmp(part, reply, replied) != 0)
        stop("the text has another part");
}

/* Reads each part of the locale: the call on its text gives the same. (Of one that is not well-formed the text means
 * something else.) Behind the last of its parts there is none. */
static void see_parts(icu_locale_t *locale)
{
    static const struct {
        reading of_handle;
        icu_locale_status (*of_text)(icu_locale_mode, const uint8_t *, size_t, uint8_t *, size_t, size_t *);
    } calls[] = {{icu_locale_to_string, icu_locale_normalize}, {icu_locale_get_base_name, icu_locale_base_name_of},
        {icu_locale_get_language, icu_locale_language_of}, {icu_locale_get_script, icu_locale_script_of},
        {icu_locale_get_region, icu_locale_region_of}};
    static uint8_t text[LINE], part[LINE];
    size_t length, needed;
    int is_und = icu_locale_is_und(locale);
    if (icu_locale_to_string(locale, text, sizeof text, &length) != ICU_LOCALE_DONE || icu_locale_cmp_bytes(locale, text, length) != 0)
        stop("a locale is not its own text");
    if (is_und != (length == 3 && memcmp(text, "und", 3) == 0) || is_und != (locale->at == NULL))
        stop("und is held, or another locale is not");
    if (icu_locale_get_variant(locale, icu_locale_variant_count(locale), REPLY) != ICU_LOCALE_NOT_FOUND
        || icu_locale_get_attribute(locale, icu_locale_attribute_count(locale), REPLY) != ICU_LOCALE_NOT_FOUND
        || icu_locale_get_keyword_key(locale, icu_locale_keyword_count(locale), REPLY) != ICU_LOCALE_NOT_FOUND)
        stop("a part stands behind the last");
    for (size_t i = 0; i < COUNT(calls); i++) {
        read_part(locale, calls[i].of_handle);
        if (icu_locale_is_well_formed(locale))
            is_reply(calls[i].of_text(ICU_LOCALE_LOCALE, text, length, part, sizeof part, &needed), part, &needed);
    }
    for (size_t i = 0; i < icu_locale_keyword_count(locale); i++) {
        uint8_t key[2];
        if (icu_locale_get_keyword_key(locale, i, key, sizeof key, &needed) != ICU_LOCALE_DONE || needed != sizeof key
            || icu_locale_get_keyword_value(locale, i, REPLY) != ICU_LOCALE_DONE)
            stop("a keyword is not there");
        if (icu_locale_is_well_formed(locale))
            is_reply(icu_locale_keyword_of(ICU_LOCALE_LOCALE, text, length, key, sizeof key, part, sizeof part, &needed), part, &needed);
    }
}

/* Cuts the first line at its tabs. */
static void split(struct text *words)
{
    size_t count = 0, from = 0;
    memset(words, 0, WORDS * sizeof *words);
    for (size_t at = 0; at <= first.length; at++)
        if (at == first.length || first.bytes[at] == '\t') {
            if (count == WORDS)
                stop("a step has too many words");
            words[count].bytes = first.bytes + from;
            words[count++].length = at - from;
            from = at + 1;
        }
}

static void answer_script(void)
{
    struct text words[WORDS];
    while (read_line(&first)) {
        split(words);
        icu_locale_t *at = slot(&words[1]);
        if (!take_change(at, words) && !take_question(at, words))
            take_two(at, words);
        see_parts(at);
        putchar('\t');
        write_part(icu_locale_to_string(at, REPLY));
        putchar('\n');
    }
    for (size_t i = 0; i < COUNT(slots); i++)
        icu_locale_free(&slots[i]);
}

int main(int count, char **words)
{
    const char *word = count == 2 ? words[1] : "";
    if (strcmp(word, "objects") == 0)
        answer_objects();
    else if (strcmp(word, "two-objects") == 0)
        answer_two();
    else if (strcmp(word, "script") == 0)
        answer_script();
    else
        stop("usage: objects objects|two-objects|script");
    return ferror(stdin) || fflush(stdout) != 0;
}
