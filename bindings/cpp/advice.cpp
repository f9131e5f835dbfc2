/* What errors of C++ say may stand at the place of a fault, and what is usually meant, for tools/try_bindings. The last line
 * is the number of cases; the first that is not as wanted ends the program. */
#include "icu_locale.hpp"

#include <cstdlib>
#include <iostream>

static unsigned long cases;

#define WANT(it)                                                                \
    do {                                                                        \
        cases++;                                                                \
        if (!(it)) {                                                            \
            std::cerr << "advice.cpp:" << __LINE__ << ": not so: " << #it << '\n'; \
            std::exit(1);                                                       \
        }                                                                       \
    } while (0)

using icu_locale::hint;
using icu_locale::kind;
using icu_locale::kinds;
using icu_locale::mode;

/* The error of a call, which is to throw one. */
template <class Call> static icu_locale::error refused(Call call)
{
    try {
        call();
    } catch (const icu_locale::error &it) {
        return it;
    }
    std::abort();
}

static constexpr icu_locale_kinds bits_of(kind it)
{
    return static_cast<icu_locale_kinds>(it);
}

template <class... More> static constexpr icu_locale_kinds bits_of(kind it, More... more)
{
    return bits_of(it) | bits_of(more...);
}

struct row {
    const char *text;
    icu_locale_kinds wanted;
    mode as;
};

/* By UTS #35, sections 3.1 and 3.2: what an identifier, u, t, x and another extension have. */
static constexpr row ROWS[] = {
    {"", bits_of(kind::language), mode::locale},
    {"en-foo", bits_of(kind::script, kind::region, kind::variant, kind::singleton, kind::end), mode::locale},
    {"en-Latn-!", bits_of(kind::region, kind::variant, kind::singleton, kind::end), mode::locale},
    {"en-US-foo", bits_of(kind::variant, kind::singleton, kind::end), mode::locale},
    {"en-u", bits_of(kind::attribute, kind::key), mode::locale},
    {"en-u-ca-!", bits_of(kind::singleton, kind::key, kind::value, kind::end), mode::locale},
    {"en-t-!", bits_of(kind::language, kind::field), mode::locale},
    {"en-t-m0-!", bits_of(kind::field_value), mode::locale},
    {"en-t-m0-din-!", bits_of(kind::singleton, kind::field, kind::field_value, kind::end), mode::locale},
    {"en-a", bits_of(kind::other), mode::locale},
    {"en-x-!", bits_of(kind::private_subtag), mode::locale},
    {"en-US-u-ca", bits_of(kind::variant, kind::end), mode::identifier},
    {"en-posix-macos", bits_of(kind::singleton, kind::end), mode::data_locale},
};

static void try_expected()
{
    for (const row &it : ROWS) {
        const icu_locale::error error = refused([&] { (void)icu_locale::normalize(it.text, it.as); });
        for (icu_locale_kinds bit = 1; bit <= ICU_LOCALE_KIND_END; bit *= 2)
            WANT(error.expected().contains(static_cast<kind>(bit)) == ((it.wanted & bit) != 0));
        WANT(error.expected() == kinds(it.wanted) && !error.expected().empty());
        WANT(icu_locale::expected(it.text, error.start(), it.as) == error.expected());
    }
    const icu_locale::error part = refused([] { icu_locale::locale().set_region("U_S"); });
    WANT(part.expected().empty() && part.expected() != kinds(bits_of(kind::end)) && part.hint() == hint::none);
    WANT(icu_locale::expected("en", 2, static_cast<mode>(3)).empty());
    WANT(icu_locale::expected("en", 2).contains(kind::end));
    WANT(words(kinds(8192)) == "Unknown kinds" && words(kinds()) == "nothing");
    WANT(words(kinds(bits_of(kind::script, kind::region, kind::variant))) == "a script, a region or a variant");
}

static void try_hints()
{
    const std::pair<const char *, hint> rows[] = {{"en_US", hint::underscores}, {"en_US.UTF-8", hint::codeset},
        {"C", hint::system}, {"en-US ", hint::blanks}, {"\xef\xbb\xbf" "en", hint::mark}, {"en_!", hint::none},
        {"en-!", hint::none}};
    for (const auto &[text, wanted] : rows) {
        WANT(refused([&given = text] { (void)icu_locale::normalize(given); }).hint() == wanted);
        WANT(icu_locale::find_hint(text) == wanted);
    }
    WANT(icu_locale::find_hint("en-US") == hint::none);
    WANT(icu_locale::find_hint("en_US_u_ca") == hint::underscores);
    WANT(icu_locale::find_hint("en_US_u_ca", mode::identifier) == hint::none);
    WANT(refused([] { (void)icu_locale::normalize("en_US_u_ca", mode::identifier); }).hint() == hint::none);
    WANT(icu_locale::find_hint("en_US", static_cast<mode>(3)) == hint::none);
    WANT(words(hint::none).empty() && words(hint::system) == "use und, since this name has no language");
}

int main()
{
    try_expected();
    try_hints();
    std::cout << cases << '\n';
}
