/* The operators of icu_locale.hpp, for tools/try_bindings: compiled as C++17, as C++20 and without exceptions. The last
 * line is the number of cases; the first that is not as wanted ends the program. */
#include "icu_locale.hpp"

#include <algorithm>
#include <cstdlib>
#include <iostream>
#include <string>
#include <string_view>
#include <type_traits>
#include <vector>

static unsigned long cases;

#define WANT(it)                                                                    \
    do {                                                                            \
        cases++;                                                                    \
        if (!(it)) {                                                                \
            std::cerr << "operators.cpp:" << __LINE__ << ": not so: " << #it << '\n'; \
            std::exit(1);                                                           \
        }                                                                           \
    } while (0)

using icu_locale::locale;

/* A locale and a text are equal if the normal form is that text. */
static void texts()
{
    const locale it("EN-us");
    const std::string text = "en-US";
    WANT(it == "en-US" && "en-US" == it && it == text && text == it && it == std::string_view(text));
    WANT(!(it != "en-US") && !("en-US" != it) && !(it != text));
    WANT(it != "EN-us" && "EN-us" != it && it != "en" && it != "" && !(it == "en-USA") && !("EN-us" == it));
    WANT(locale() == "und" && locale() != "");
    WANT(!(std::is_convertible<const char *, locale>::value) && !(std::is_convertible<std::string_view, locale>::value));
}

/* The order is that of parts: a longer language that begins alike comes last, and und after en. */
static void order()
{
    std::vector<locale> all;
    for (const char *text : {"und", "en-posix", "eng", "en-US", "en", "de"})
        all.emplace_back(text);
    std::sort(all.begin(), all.end());
    for (std::size_t at = 0; at < all.size(); at++)
        for (std::size_t other = 0; other < all.size(); other++) {
            const locale &one = all[at], &two = all[other];
            WANT((one < two) == (at < other) && (one > two) == (at > other) && (one == two) == (at == other));
            WANT((one <= two) == (at <= other) && (one >= two) == (at >= other) && (one != two) == (at != other));
#if defined(__cpp_impl_three_way_comparison) && defined(__cpp_lib_three_way_comparison)
            WANT((one <=> two) == (at <=> other));
            static_assert(std::is_same_v<decltype(one <=> two), std::strong_ordering>);
#endif
        }
    WANT(all.front() == "de" && all[1] == "en" && all.back() == "und");
}

/* The value of a temporary result outlives it, whether it is bound or copied. */
static void temporaries()
{
    WANT((std::is_same<decltype(*icu_locale::try_normalize("en")), std::string>::value));
    WANT((std::is_same<decltype(icu_locale::try_normalize("en").value()), std::string>::value));
    const std::string &bound = *icu_locale::try_normalize("EN-x-aaaaaaaa-bbbbbbbb-cccccccc");
    WANT(bound == "en-x-aaaaaaaa-bbbbbbbb-cccccccc" && *locale::try_parse("EN-us") == "en-US");
    const icu_locale::result<std::string> kept = icu_locale::try_normalize("EN");
    WANT(&*kept == &kept.value() && *kept == "en" && kept->size() == 2);
}

/* Each parent lacks one part: all extensions, a variant, the region, the script, the language. */
static void parents()
{
    WANT(!locale().parent());
    std::string all;
    for (auto it = locale::try_parse("sr-latn-RS-macos-posix-a-foo-u-ca-roc-x-y")->parent(); it; it = it->parent())
        all += it->to_string() + ' ';
    WANT(all == "sr-Latn-RS-macos-posix sr-Latn-RS-macos sr-Latn-RS sr-Latn sr und ");
    WANT(locale("und-x-y").parent() == locale() && locale("und-US").parent() == locale());
    WANT(locale("en-t-de").parent() == locale("en") && locale("und-posix").parent() == locale("und"));
}

#if defined(__cpp_lib_format)
/* The forms that std::format has for texts. */
static void formats()
{
    const locale it("EN-us");
    WANT(std::format("{}|{:>7}|{:*^7.3}|", it, it, it) == "en-US|  en-US|**en-**|");
    WANT(std::format("{:{}}|", locale(), 5) == "und  |");
}
#endif

int main()
{
    texts();
    order();
    temporaries();
    parents();
#if defined(__cpp_lib_format)
    formats();
#endif
    WANT(!icu_locale::try_normalize("en-") && !locale::try_parse("e"));
    std::cout << cases << '\n';
}
