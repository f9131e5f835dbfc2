/* Refuses each request for memory of each call in turn, for tools/try_bindings: of the library and of the C++ containers.
 * It is linked with the library of tools/refusing.py.
 *
 * A call that is refused throws std::bad_alloc, changes nothing, and leaves no block behind. The calls that are noexcept
 * make no request. The last line is the number of cases; the first that is not as wanted ends the program. */
#include "icu_locale.hpp"
#include "../c/refusing.h"

#include <cstdlib>
#include <iostream>
#include <new>

void *operator new(std::size_t size)
{
    if (void *block = refusing_malloc(size))
        return block;
    throw std::bad_alloc();
}

void operator delete(void *block) noexcept
{
    refusing_free(block);
}

void operator delete(void *block, std::size_t) noexcept
{
    refusing_free(block);
}

static unsigned long cases;

#define WANT(it)                                                                  \
    do {                                                                          \
        cases++;                                                                  \
        if (!(it)) {                                                              \
            refusing_after(-1);                                                   \
            std::cerr << "refused.cpp:" << __LINE__ << ": not so: " << #it << '\n'; \
            std::exit(1);                                                         \
        }                                                                         \
    } while (0)

using icu_locale::locale;
using icu_locale::mode;

static const char *const STARTS[] = {"und", "en", "en-aaaaa-bbbbb-ccccc-ddddd",
    "en-aaaaa-bbbbb-ccccc-ddddd-eeeee-a-foo-t-de-m0-abc-abcdefgh-u-aaa-bbb-ccc-ddd-eee-ca-roc-nu-latn-x-a-b-c-d-e"};
static const char LONG[] =
    "de-aaaaa-bbbbb-ccccc-ddddd-eeeee-b-foo-t-und-m0-abc-u-aaa-ca-aaa-bbb-ccc-ddd-eee-co-phonebk-x-a-b-c-d-e";
static const char SHORT[] = "de-u-ca-buddhist";

/* Has the call, on a locale that starts as this, refused at each of its requests. If the call refuses a text anyway, it
 * may say so in place of the request that was refused: compare does, if that request was for its other text. */
template <class Call> static void refuse_each(const char *start, Call call)
{
    bool is_refused = true;
    for (long granted = 0; is_refused; granted++) {
        const long before = refusing_live();
        {
            locale it(start);
            const std::string text = it.to_string();
            const long held = refusing_live();
            bool has_thrown = false, is_wrong_text = false;
            refusing_after(granted);
            try {
                call(it);
            } catch (const std::bad_alloc &) {
                has_thrown = true;
            } catch (const icu_locale::error &) {
                is_wrong_text = true;
            }
            is_refused = refusing_refused() > 0;
            refusing_after(-1);
            WANT(has_thrown == is_refused || is_wrong_text);
            WANT(!is_refused || refusing_live() == held);
            WANT(!is_refused || it.to_string() == text);
        }
        WANT(refusing_live() == before);
    }
}

/* Has the call make no request, with all refused. */
template <class Call> static void ask_nothing(const char *start, Call call)
{
    const locale it(start), other(LONG);
    refusing_after(0);
    call(it, other);
    const long requests = refusing_requests();
    refusing_after(-1);
    WANT(requests == 0);
}

static void make_and_read(const char *start)
{
    refuse_each(start, [](locale &) { locale made(LONG); });
    refuse_each(start, [](locale &) { locale made("en-aaaaa-bbbbb-ccccc-ddddd-eeeee-x-abcdefghi"); });
    refuse_each(start, [](locale &) { return bool(locale::try_parse(LONG)); });
    refuse_each(start, [](locale &it) { locale made(it); });
    refuse_each(start, [](locale &it) { it.assign(LONG); });
    refuse_each(start, [](locale &it) { it.to_string(); });
    refuse_each(start, [](locale &it) { it.base_name(); });
    refuse_each(start, [](locale &it) { it.variants(); });
    refuse_each(start, [](locale &it) { it.keywords(); });
    refuse_each(start, [](locale &it) { it.keyword("ca"); });
    refuse_each(start, [](locale &it) { it.attributes(); });
    refuse_each(start, [](locale &it) { it.fields(); });
    refuse_each(start, [](locale &it) { it.transform_language(); });
    refuse_each(start, [](locale &it) { it.private_extension(); });
    refuse_each(start, [](locale &it) { it.normalizing_eq(LONG); });
    refuse_each(start, [](locale &it) { it.other('a'); });
    refuse_each(start, [](locale &it) { it.data_locale(icu_locale::priority::region); });
    refuse_each(start, [](locale &it) { it.calendar_algorithm(); });
}

static void change(const char *start)
{
    static const locale other(LONG);
    refuse_each(start, [](locale &it) { it = other; });
    refuse_each(start, [](locale &it) { it.set_language("fr"); });
    refuse_each(start, [](locale &it) { it.set_script("Cyrl"); });
    refuse_each(start, [](locale &it) { it.set_region("FR"); });
    refuse_each(start, [](locale &it) { it.set_language("e"); });
    refuse_each(start, [](locale &it) { it.add_variant("posix"); });
    refuse_each(start, [](locale &it) { it.remove_variant("aaaaa"); });
    refuse_each(start, [](locale &it) { it.clear_variants(); });
    refuse_each(start, [](locale &it) { it.set_keyword("hc", "aaa-bbb-ccc-ddd-eee-fff"); });
    refuse_each(start, [](locale &it) { it.remove_keyword("ca"); });
    refuse_each(start, [](locale &it) { it.clear_keywords(); });
    refuse_each(start, [](locale &it) { it.add_attribute("foo"); });
    refuse_each(start, [](locale &it) { it.remove_attribute("bbb"); });
    refuse_each(start, [](locale &it) { it.clear_attributes(); });
    refuse_each(start, [](locale &it) { it.set_transform_language("de-aaaaa-bbbbb-ccccc-ddddd-eeeee"); });
    refuse_each(start, [](locale &it) { it.set_field("h0", "aaa-bbb-ccc-ddd-eee"); });
    refuse_each(start, [](locale &it) { it.remove_field("m0"); });
    refuse_each(start, [](locale &it) { it.clear_fields(); });
    refuse_each(start, [](locale &it) { it.set_other("c-foo-bar"); });
    refuse_each(start, [](locale &it) { it.set_other("a-bar"); });
    refuse_each(start, [](locale &it) { it.remove_other('a'); });
    refuse_each(start, [](locale &it) { it.extend_unicode(other); });
    refuse_each(start, [](locale &it) { it.set_private_extension("x-a-b-c-d-e-f"); });
}

static void make_no_request(const char *start)
{
    ask_nothing(start, [](const locale &it, const locale &other) { return it == other; });
    ask_nothing(start, [](const locale &it, const locale &other) { return it < other; });
    ask_nothing(start, [](const locale &it, const locale &) { return it.strict_cmp(LONG); });
    ask_nothing(start, [](const locale &it, const locale &) { return std::hash<locale>()(it); });
    ask_nothing(start, [](const locale &it, const locale &) { return it.is_und() == it.is_well_formed(); });
    ask_nothing(start, [](const locale &it, const locale &) { return it.has_variant("aaaaa") == it.has_attribute("aaa"); });
    ask_nothing(start, [](const locale &it, const locale &other) { return it.data_compare(other); });
    ask_nothing(start, [](const locale &it, const locale &) { return it.data_strict_cmp(LONG) == it.has_other('a'); });
    locale one(start), other(LONG);
    refusing_after(0);
    swap(one, other);
    locale moved(std::move(one));
    other = std::move(moved);
    const long requests = refusing_requests();
    refusing_after(-1);
    WANT(requests == 0 && one.is_und() && other.to_string() == LONG);
}

static void texts()
{
    for (const mode as : {mode::identifier, mode::locale, mode::data_locale})
        for (const char *text : {LONG, SHORT, "en-aaaaa-bbbbb-ccccc-ddddd-eeeee", "en-"}) {
            refuse_each("und", [=](locale &) { icu_locale::normalize(text, as); });
            refuse_each("und", [=](locale &) { (void)icu_locale::check(text, as); });
            refuse_each("und", [=](locale &) { icu_locale::strict_cmp(text, LONG, as); });
            refuse_each("und", [=](locale &) { icu_locale::normalizing_eq(text, LONG, as); });
            refuse_each("und", [=](locale &) { icu_locale::compare(text, LONG, as); });
            refuse_each("und", [=](locale &) { icu_locale::normalize_many(std::vector{SHORT, text, LONG}, as); });
            refuse_each("und", [=](locale &) { icu_locale::try_normalize_many(std::vector{text, "a\nb", LONG}, as); });
        }
}

int main()
{
    for (const char *start : STARTS) {
        make_and_read(start);
        change(start);
        make_no_request(start);
    }
    texts();
    std::cout << cases << '\n';
}
