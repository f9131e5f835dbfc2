/* A target for libFuzzer. The first byte of an input is the mode; what follows is two texts with a newline between them. Of
 * each answer it tests what the header says of it by the other calls, and stops where one says otherwise. After
 * bindings/build, for a minute:
 *
 *     mkdir -p out/fuzz
 *     awk 'NR % 20 == 1 { a = $0 } NR % 20 == 2 { printf "%d%s\n%s", NR % 3, a, $0 > ("out/fuzz/" NR) }' vectors/texts.in
 *     clang -g -O1 -fsanitize=fuzzer,address,undefined -Iinclude bindings/c/fuzz.c out/bindings/libicu_locale.a -o out/fuzz-texts
 *     out/fuzz-texts -max_len=512 -keep_seed=1 -reduce_inputs=0 -max_total_time=60 out/fuzz */
#include "icu_locale.h"

#include <stdio.h>
#include <stdlib.h>
#include <string.h>

/* The library counts nothing for libFuzzer, so the answers do: a new mode, status and number of subtags is news. */
#define SUBTAGS 32
__attribute__((section("__libfuzzer_extra_counters"))) static uint8_t news[3 * 8 * SUBTAGS * 2];

struct text {
    const uint8_t *bytes;
    size_t length;
};

static void stop(const char *why)
{
    fprintf(stderr, "fuzz: %s\n", why);
    abort();
}

/* Normalizes into a block of just that room, so that the sanitizer sees a byte behind it. */
static icu_locale_status normalize(icu_locale_mode mode, struct text text, size_t room, uint8_t **buffer, size_t *length)
{
    *buffer = malloc(room ? room : 1);
    if (*buffer == NULL)
        stop("out of memory");
    return icu_locale_normalize(mode, text.bytes, text.length, *buffer, room, length);
}

static void note(icu_locale_mode mode, icu_locale_status status, struct text text, int is_long)
{
    size_t subtags = 0;
    for (size_t i = 0; i < text.length; i++)
        subtags += text.bytes[i] == '-';
    news[((mode * 8 + status) * SUBTAGS + (subtags < SUBTAGS ? subtags : SUBTAGS - 1)) * 2 + (is_long != 0)] = 1;
}

static int order_of(icu_locale_mode mode, struct text a, struct text b)
{
    int8_t order = 9;
    if (icu_locale_compare(mode, a.bytes, a.length, b.bytes, b.length, &order) != ICU_LOCALE_DONE || order < -1 || order > 1)
        stop("two texts with a meaning have no order");
    return order;
}

/* The normal form is its own, means what the text means, and needs the room that was said. */
static void look_at_normal(icu_locale_mode mode, struct text text, struct text normal)
{
    uint8_t *again, same = 9;
    size_t length;
    int8_t order = 9;
    if (normal.length > text.length + (mode == ICU_LOCALE_DATA_LOCALE ? 4 : 0))
        stop("a normal form is too long");
    if (normalize(mode, normal, normal.length, &again, &length) != ICU_LOCALE_DONE || length != normal.length ||
        memcmp(again, normal.bytes, length) != 0)
        stop("a normal form has another");
    free(again);
    if (normalize(mode, text, normal.length - 1, &again, &length) != ICU_LOCALE_BUFFER_TOO_SMALL || length != normal.length)
        stop("a buffer that is too small was enough");
    free(again);
    if (icu_locale_strict_cmp(mode, text.bytes, text.length, normal.bytes, normal.length, &order) != ICU_LOCALE_DONE || order != 0)
        stop("the order against the normal form");
    if (icu_locale_normalizing_eq(mode, normal.bytes, normal.length, text.bytes, text.length, &same) != ICU_LOCALE_DONE || same != 1)
        stop("the normal form means something else");
}

/* Something may stand at the place of a fault, and a text with a meaning may end. It has no hint. */
static void look_at_advice(icu_locale_mode mode, struct text text, size_t place, icu_locale_status status)
{
    icu_locale_kinds kinds = 0;
    icu_locale_hint_number hint = 0;
    int is_done = status == ICU_LOCALE_DONE;
    if (icu_locale_expected(mode, text.bytes, text.length, place, &kinds) != ICU_LOCALE_DONE || kinds == 0)
        stop("nothing may stand where something may");
    if (is_done && !(kinds & ICU_LOCALE_KIND_END))
        stop("a text may not end at its end");
    if (icu_locale_hint(mode, text.bytes, text.length, &hint) != ICU_LOCALE_DONE || (is_done && hint != ICU_LOCALE_NO_HINT))
        stop("a text with a meaning has a hint");
}

/* The place of the fault is a piece of the text, or its end. What is before it is refused for no other reason. */
static void look_at_fault(icu_locale_mode mode, struct text text, icu_locale_status status)
{
    size_t start = text.length + 1, end = 0, again = 0, last = 0;
    if (icu_locale_find_fault(mode, text.bytes, text.length, &start, &end) != status)
        stop("the fault that is found says otherwise");
    if (status == ICU_LOCALE_DONE ? start != text.length + 1 || end != 0 : start > end || end > text.length)
        stop("a fault stands beside its text");
    look_at_advice(mode, text, status == ICU_LOCALE_DONE ? text.length : start, status);
    if (status == ICU_LOCALE_DONE || end == text.length)
        return;
    if (icu_locale_find_fault(mode, text.bytes, end, &again, &last) == ICU_LOCALE_DONE || again != start || last != end)
        stop("what follows a fault moves it");
}

/* Returns whether the text has a meaning. */
static int look_at(icu_locale_mode mode, struct text text)
{
    uint8_t *buffer;
    size_t length;
    icu_locale_status status = normalize(mode, text, text.length + 4, &buffer, &length);
    if (icu_locale_check(mode, text.bytes, text.length) != status || status == ICU_LOCALE_BUFFER_TOO_SMALL)
        stop("checking says otherwise");
    look_at_fault(mode, text, status);
    note(mode, status, text, text.length > 24);
    if (status == ICU_LOCALE_DONE)
        look_at_normal(mode, text, (struct text){buffer, length});
    else if (length != 0)
        stop("a refused text needs room");
    free(buffer);
    return status == ICU_LOCALE_DONE;
}

static void look_at_both(icu_locale_mode mode, struct text a, struct text b)
{
    uint8_t same = 9;
    int order = order_of(mode, a, b);
    if (order_of(mode, b, a) != -order)
        stop("the order changes with the sides");
    if (icu_locale_normalizing_eq(mode, a.bytes, a.length, b.bytes, b.length, &same) != ICU_LOCALE_DONE || same != (order == 0))
        stop("the same meaning, in another order");
}

int LLVMFuzzerTestOneInput(const uint8_t *data, size_t size)
{
    if (size == 0)
        return 0;
    icu_locale_mode mode = data[0] % 3;
    const uint8_t *cut = memchr(data + 1, '\n', size - 1);
    struct text a = {data + 1, cut ? (size_t)(cut - data - 1) : size - 1};
    struct text b = {cut ? cut + 1 : NULL, cut ? size - a.length - 2 : 0};
    int is_a = look_at(mode, a), is_b = look_at(mode, b);
    if (is_a && is_b)
        look_at_both(mode, a, b);
    return 0;
}
