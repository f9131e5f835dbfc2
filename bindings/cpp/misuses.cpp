/* What callers may do wrong with icu_locale.hpp, for tools/try_bindings. The last line is the number of cases; the first
 * that is not as wanted ends the program. */
#include "icu_locale.hpp"

#include <cstdlib>
#include <iostream>
#include <string>
#include <vector>

static unsigned long cases;

#define WANT(it)                                                                  \
    do {                                                                          \
        cases++;                                                                  \
        if (!(it)) {                                                              \
            std::cerr << "misuses.cpp:" << __LINE__ << ": not so: " << #it << '\n'; \
            std::exit(1);                                                         \
        }                                                                         \
    } while (0)

using icu_locale::locale;
using icu_locale::mode;
using icu_locale::priority;
using icu_locale::status;

/* The status with which the call is refused, or done. */
template <class Call> static status refusal(Call call)
{
    try {
        call();
    } catch (const icu_locale::error &refused) {
        return refused.status();
    }
    return status::done;
}

/* Numbers that are no priority and no mode. */
static void unknown_numbers()
{
    const locale one("en-GB-u-rg-uszzzz"), other("de");
    for (icu_locale_priority number : {2u, 7u, 256u, 0xffffffffu}) {
        const priority by = static_cast<priority>(number);
        WANT(refusal([&] { (void)one.data_locale(by); }) == status::unknown_number);
        WANT(refusal([&] { (void)locale().data_locale(by); }) == status::unknown_number);
        WANT(refusal([&] { (void)one.data_strict_cmp("en-GB", by); }) == status::unknown_number);
        WANT(refusal([&] { (void)one.data_compare(other, by); }) == status::unknown_number);
        WANT(refusal([&] { (void)one.data_compare(one, by); }) == status::unknown_number);
    }
    for (icu_locale_mode number : {3u, 7u, 256u, 0xffffffffu}) {
        const mode as = static_cast<mode>(number);
        WANT(icu_locale::check("en", as) == status::unknown_number);
        WANT(refusal([&] { (void)icu_locale::normalize("en", as); }) == status::unknown_number);
        WANT(refusal([&] { (void)icu_locale::strict_cmp("en", "en", as); }) == status::unknown_number);
        WANT(refusal([&] { (void)icu_locale::normalizing_eq("en", "en", as); }) == status::unknown_number);
        WANT(refusal([&] { (void)icu_locale::compare("en", "en", as); }) == status::unknown_number);
    }
    WANT(icu_locale::words(static_cast<status>(9)) == "Unknown status");
}

/* One object in both places of a call. */
static void itself()
{
    locale it("en-GB-u-foo-ca-roc-x-a-b-c-d-e");
    const std::string text = it.to_string();
    const locale &same = it;
    WANT(it == same && !(it != same) && !(it < same) && it <= same && it >= same && it.compare(same) == 0);
    WANT(it.data_compare(same) == 0 && it.data_compare(same, priority::region) == 0);
    it = same;
    WANT(it.to_string() == text);
    it = std::move(const_cast<locale &>(same));
    WANT(it.to_string() == text);
    it.swap(const_cast<locale &>(same));
    WANT(it.to_string() == text);
    it.extend_unicode(same);
    WANT(it.to_string() == text);
    WANT(icu_locale::is_of_this_version());
}

/* The error of a text of ten million bytes keeps the first 64 of them. */
static void long_texts()
{
    const std::string text = "en-" + std::string(10000000, 'x');
    try {
        (void)icu_locale::normalize(text);
    } catch (const icu_locale::error &refused) {
        WANT(std::string(refused.what()) == "Invalid subtag: '" + text.substr(0, 64) + "'... at 3..10000003: " +
                 "a script, a region, a variant or an extension may stand here");
        WANT(refused.start() == 3 && refused.end() == text.size());
    }
    try {
        locale().set_keyword(text, text);
    } catch (const icu_locale::error &refused) {
        WANT(std::string(refused.what()) == "Invalid extension: '" + text.substr(0, 64) + "'...");
    }
}

/* Texts that cannot be lines, or look like answers, and none: each is answered among others as alone. */
static void many_texts()
{
    const std::string cut = "en\n", zero("en-\0-US", 7), huge = "en-x" + std::string(200000, '-'), plain = "EN-us";
    std::string variants = "en";
    for (int at = 0; at < 5000; at++)
        variants += "-v" + std::to_string(10000 + at);
    const std::vector<std::string> hostile = {"", cut, "\n", "\n\n", "en\nfr", "en-a-\n\n-foo", "en-a-foo-\n", "en\r", "\r\n",
        "! Invalid subtag", "!", "en-a-!!-foo", zero, "\xff\xfe", "en-\xc3\xa9", "\xed\xa0\x80", variants, huge, plain};
    for (const mode as : {mode::identifier, mode::locale, mode::data_locale, static_cast<mode>(7)}) {
        std::vector<std::string> texts = hostile;
        for (int round = 0; round < 2; round++) {
            const auto made = icu_locale::try_normalize_many(texts, as);
            WANT(made.size() == texts.size());
            for (std::size_t at = 0; at < texts.size(); at++) {
                const auto alone = icu_locale::try_normalize(texts[at], as);
                WANT(made[at].status() == alone.status() && (!alone || *made[at] == *alone));
            }
            texts.insert(texts.end(), 20000, plain);
            texts.insert(texts.end(), hostile.rbegin(), hostile.rend());
        }
        WANT(icu_locale::try_normalize_many(std::vector<std::string>(), as).empty());
        WANT(refusal([&] { (void)icu_locale::normalize_many(hostile, as); }) != status::done);
    }
    WANT(icu_locale::try_normalize_many(hostile)[5]->compare("en-a-foo") == 0);
    const char *const words[] = {"EN-us", "zh-hant-TW"};
    WANT((icu_locale::normalize_many(words) == std::vector<std::string>{"en-US", "zh-Hant-TW"}));
    WANT((icu_locale::normalize_many(std::vector<std::string_view>{"und-u-sd-gbeng"}, mode::data_locale).at(0) == "und-GB-u-sd-gbeng"));
}

int main()
{
    unknown_numbers();
    many_texts();
    itself();
    long_texts();
    std::cout << cases << '\n';
}
