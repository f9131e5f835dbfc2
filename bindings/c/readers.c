/* Eight threads read the same locales at the same time, for tools/try_bindings: readers [ROUNDS].
 *
 * The handles, and all that they own, lie in memory that cannot be written meanwhile: a call that writes to it ends the
 * program. Each round makes each call of the header that only reads, with one handle in both places where there are two,
 * and copies the locale and extends others by it. Calls that allocate nothing are seen to ask for no block. It is linked
 * with --wrap of malloc, realloc and free.
 *
 * The last line is the number of cases. The first that is not as wanted ends the program. */
#define _DEFAULT_SOURCE
#include "icu_locale.h"

#include <pthread.h>
#include <stdio.h>
#include <stdlib.h>
#include <string.h>
#include <sys/mman.h>

enum { THREADS = 8, ARENA = 1 << 16, PAGE = 4096 };

#define TEXT "en-Latn-GB-posix-scouse-a-foo-bar-t-de-latn-m0-din" \
    "-u-aaa-bbb-ca-buddhist-hc-h12-nu-thai-rg-uszzzz-x-p-q"
#define UNICODE "-u-aaa-bbb-ca-buddhist-hc-h12-nu-thai-rg-uszzzz"
#define OF(text) (const uint8_t *)(text), sizeof(text) - 1
#define INTO buffer, sizeof buffer, &needed

/* The blocks of the locales that all threads read. A block of one thread alone is malloc's. */
static uint8_t *arena;
static size_t used;
static bool is_locked;
static __thread unsigned long asked; /* how many blocks this thread has asked for */

void *__real_malloc(size_t size);
void *__real_realloc(void *block, size_t size);
void __real_free(void *block);

static bool is_shared(const void *block)
{
    return (const uint8_t *)block >= arena && (const uint8_t *)block < arena + ARENA;
}

void *__wrap_malloc(size_t size)
{
    asked++;
    if (is_locked || arena == NULL)
        return __real_malloc(size);
    used += (size + 15) / 16 * 16;
    return used <= ARENA ? arena + used - (size + 15) / 16 * 16 : NULL;
}

void __wrap_free(void *block)
{
    if (!is_shared(block))
        __real_free(block);
}

void *__wrap_realloc(void *block, size_t size)
{
    if (is_locked || arena == NULL) {
        asked++;
        return __real_realloc(block, size);
    }
    uint8_t *made = __wrap_malloc(size);
    for (size_t at = 0; made != NULL && block != NULL && at < size; at++)
        made[at] = ((uint8_t *)block)[at];
    return made;
}

static const icu_locale_t und = ICU_LOCALE_UND;
static const icu_locale_t *one, *copy;
static long rounds = 1000;

#define WANT(it)                                                                \
    do {                                                                        \
        ++*cases;                                                               \
        if (!(it)) {                                                            \
            fprintf(stderr, "readers.c:%d: not so: %s\n", __LINE__, #it);       \
            _Exit(1);                                                           \
        }                                                                       \
    } while (0)

/* Whether a call has written this text. */
#define IS(status, text)                                                        \
    ((status) == ICU_LOCALE_DONE && needed == sizeof(text) - 1 && memcmp(buffer, text, needed) == 0)

/* FNV-1a, by its description. */
static uint64_t fnv(const char *text)
{
    uint64_t hash = UINT64_C(0xcbf29ce484222325);
    for (; *text != '\0'; text++)
        hash = (hash ^ (uint8_t)*text) * UINT64_C(0x100000001b3);
    return hash;
}

static void read_whole(unsigned long *cases)
{
    uint8_t buffer[128];
    size_t needed = 0;
    WANT(!icu_locale_is_und(one) && icu_locale_is_und(&und) && icu_locale_is_well_formed(one));
    WANT(icu_locale_cmp(one, copy) == 0 && icu_locale_cmp(one, one) == 0 && icu_locale_cmp(one, &und) == -1);
    WANT(icu_locale_eq(one, copy) && icu_locale_eq(one, one) && !icu_locale_eq(&und, one));
    WANT(icu_locale_cmp_bytes(one, OF(TEXT)) == 0 && icu_locale_hash(one) == fnv(TEXT));
    WANT(IS(icu_locale_to_string(one, INTO), TEXT));
    WANT(IS(icu_locale_to_string(&und, INTO), "und"));
    WANT(IS(icu_locale_get_base_name(one, INTO), "en-Latn-GB-posix-scouse"));
    WANT(IS(icu_locale_get_language(one, INTO), "en"));
    WANT(IS(icu_locale_get_script(one, INTO), "Latn"));
    WANT(IS(icu_locale_get_region(one, INTO), "GB"));
    WANT(icu_locale_variant_count(one) == 2 && icu_locale_has_variant(one, OF("SCOUSE")));
    WANT(IS(icu_locale_get_variant(one, 0, INTO), "posix"));
}

static void read_extensions(unsigned long *cases)
{
    uint8_t buffer[128];
    size_t needed = 0;
    WANT(icu_locale_keyword_count(one) == 4 && IS(icu_locale_get_keyword_key(one, 0, INTO), "ca"));
    WANT(IS(icu_locale_get_keyword_value(one, 0, INTO), "buddhist"));
    WANT(IS(icu_locale_get_keyword(one, OF("HC"), INTO), "h12"));
    WANT(icu_locale_attribute_count(one) == 2 && icu_locale_has_attribute(one, OF("aaa")));
    WANT(IS(icu_locale_get_attribute(one, 1, INTO), "bbb"));
    WANT(IS(icu_locale_get_transform_language(one, INTO), "de-Latn"));
    WANT(icu_locale_field_count(one) == 1 && IS(icu_locale_get_field_key(one, 0, INTO), "m0"));
    WANT(IS(icu_locale_get_field_value(one, 0, INTO), "din"));
    WANT(IS(icu_locale_get_field(one, OF("m0"), INTO), "din"));
    WANT(IS(icu_locale_get_private(one, INTO), "x-p-q"));
    WANT(icu_locale_has_other(one, 'A') && IS(icu_locale_get_other(one, 'a', INTO), "a-foo-bar"));
    WANT(IS(icu_locale_get_calendar_algorithm(one, INTO), "buddhist"));
    WANT(IS(icu_locale_get_hour_cycle(one, INTO), "h12"));
    WANT(IS(icu_locale_get_numbering_system(one, INTO), "thai"));
}

static void read_data_locale(unsigned long *cases)
{
    uint8_t buffer[128];
    size_t needed = 0;
    int8_t order = 9;
    WANT(IS(icu_locale_get_data_locale(one, ICU_LOCALE_BY_LANGUAGE, INTO), "en-Latn-GB-posix"));
    WANT(icu_locale_data_cmp_bytes(one, ICU_LOCALE_BY_REGION, OF("en-Latn-US-posix"), &order) == ICU_LOCALE_DONE);
    WANT(order == 0);
    order = 9;
    WANT(icu_locale_data_cmp(one, copy, ICU_LOCALE_BY_REGION, &order) == ICU_LOCALE_DONE && order == 0);
    order = 9;
    WANT(icu_locale_data_cmp(one, one, ICU_LOCALE_BY_LANGUAGE, &order) == ICU_LOCALE_DONE && order == 0);
}

/* The calls that may allocate: on locales of this thread, and for a text that is parsed. */
static void read_for_own(unsigned long *cases)
{
    uint8_t buffer[128], same = 9;
    size_t needed = 0;
    icu_locale_t own = ICU_LOCALE_UND, extended = ICU_LOCALE_UND;
    WANT(icu_locale_eq_text(one, OF(TEXT), &same) == ICU_LOCALE_DONE && same == 1);
    WANT(icu_locale_copy(&own, one) == ICU_LOCALE_DONE && icu_locale_eq(&own, copy));
    WANT(icu_locale_set_region(&own, OF("US")) == ICU_LOCALE_DONE && icu_locale_cmp(&own, one) == 1);
    WANT(icu_locale_extend_unicode(&extended, one) == ICU_LOCALE_DONE);
    WANT(IS(icu_locale_to_string(&extended, INTO), "und" UNICODE));
    icu_locale_free(&own);
    icu_locale_free(&extended);
}

static void *read_often(void *counted)
{
    unsigned long *cases = counted;
    for (long round = 0; round < rounds; round++) {
        unsigned long before = asked;
        read_whole(cases);
        read_extensions(cases);
        read_data_locale(cases);
        WANT(asked == before);
        read_for_own(cases);
    }
    return NULL;
}

static void *pages(size_t size)
{
    void *made = mmap(NULL, size, PROT_READ | PROT_WRITE, MAP_PRIVATE | MAP_ANONYMOUS, -1, 0);
    if (made == MAP_FAILED)
        exit(2);
    return made;
}

/* The handles and their blocks may only be read, or also written. */
static void protect(icu_locale_t *handles, int how)
{
    if (mprotect(handles, PAGE, how) != 0 || mprotect(arena, ARENA, how) != 0)
        exit(2);
}

int main(int count, char **words)
{
    static unsigned long counted[THREADS + 1], *cases = &counted[THREADS];
    pthread_t threads[THREADS];
    if (count > 1)
        rounds = atol(words[1]);
    arena = pages(ARENA);
    icu_locale_t *handles = pages(PAGE);
    WANT(icu_locale_parse(&handles[0], OF(TEXT)) == ICU_LOCALE_DONE);
    WANT(icu_locale_copy(&handles[1], &handles[0]) == ICU_LOCALE_DONE && used > 0 && used <= ARENA);
    one = &handles[0], copy = &handles[1], is_locked = true;
    protect(handles, PROT_READ);
    for (int at = 0; at < THREADS; at++)
        WANT(pthread_create(&threads[at], NULL, read_often, &counted[at]) == 0);
    for (int at = 0; at < THREADS; at++) {
        WANT(pthread_join(threads[at], NULL) == 0 && counted[at] > 0);
        *cases += counted[at];
    }
    protect(handles, PROT_READ | PROT_WRITE);
    icu_locale_free(&handles[0]);
    WANT(icu_locale_is_und(&handles[0]) && icu_locale_eq(&handles[1], copy));
    icu_locale_free(&handles[1]);
    printf("%lu\n", *cases);
    return 0;
}
