/* Eight threads read the same const locales at the same time, for tools/try_bindings, also under the thread sanitizer:
 * readers [ROUNDS]. The last line is the number of cases; the first that is not as wanted ends the program. */
#include "icu_locale.hpp"

#include <cstdlib>
#include <iostream>
#include <string>
#include <thread>
#include <vector>

using icu_locale::locale;
using icu_locale::priority;

#define WANT(it)                                                                  \
    do {                                                                          \
        ++cases;                                                                  \
        if (!(it)) {                                                              \
            std::cerr << "readers.cpp:" << __LINE__ << ": not so: " << #it << '\n'; \
            std::_Exit(1);                                                        \
        }                                                                         \
    } while (0)

static const std::string text = "en-Latn-GB-posix-a-foo-t-de-m0-din-u-aaa-ca-buddhist-hc-h12-nu-thai-rg-uszzzz-x-p-q";
static const locale one(text), copy(one), und;

static void read_parts(unsigned long &cases)
{
    WANT(one.to_string() == text && one.base_name() == "en-Latn-GB-posix" && one.language() == "en");
    WANT(one.script() == "Latn" && one.region() == "GB" && one.variants().size() == 1 && one.has_variant("POSIX"));
    WANT(one.keywords().size() == 4 && one.keyword("ca") == "buddhist" && one.has_attribute("aaa"));
    WANT(one.attributes().size() == 1 && one.fields().size() == 1 && one.field("m0") == "din");
    WANT(one.transform_language() == "de" && one.private_extension() == "x-p-q");
    WANT(one.has_other('a') && one.other('a') == "a-foo");
    WANT(one.calendar_algorithm() == "buddhist" && one.hour_cycle() == "h12" && one.numbering_system() == "thai");
}

static void read_whole(unsigned long &cases)
{
    WANT(one == copy && one == one && one != und && one.compare(one) == 0 && one < und && und.is_und());
    WANT(one.is_well_formed() && one.hash() == copy.hash() && one.strict_cmp(text) == 0 && one.normalizing_eq(text));
    WANT(one.data_locale(priority::region) == "en-Latn-US-posix" && one.data_compare(copy) == 0);
    WANT(one.data_compare(one, priority::region) == 0 && one.data_strict_cmp("en-Latn-GB-posix") == 0);
    locale own(one);
    own.set_region("US");
    WANT(own > one && own.region() == "US");
    own = und;
    own.extend_unicode(one);
    WANT(own.to_string() == "und-u-aaa-ca-buddhist-hc-h12-nu-thai-rg-uszzzz");
    WANT(one.parent() == locale("en-Latn-GB-posix"));
}

static void read_texts(unsigned long &cases)
{
    WANT(icu_locale::normalize("EN-us") == "en-US" && icu_locale::check(text) == icu_locale::status::done);
    WANT(icu_locale::compare(text, "en") == 1 && icu_locale::normalizing_eq("EN-us", "en-US"));
    WANT(icu_locale::find_fault("en-")->start == 3 && icu_locale::strict_cmp("EN", "en") == 0);
    try {
        (void)icu_locale::normalize("en-u");
    } catch (const icu_locale::error &refused) {
        WANT(std::string("Invalid extension: 'en-u' at 4..4: an attribute or a key may stand here") == refused.what());
    }
}

int main(int count, char **words)
{
    const int rounds = count > 1 ? std::atoi(words[1]) : 1000;
    std::vector<unsigned long> counted(8, 0);
    std::vector<std::thread> threads;
    for (unsigned long &it : counted)
        threads.emplace_back([&it, rounds] {
            unsigned long cases = 0;
            for (int round = 0; round < rounds; round++) {
                read_parts(cases);
                read_whole(cases);
                read_texts(cases);
            }
            it = cases;
        });
    for (std::thread &it : threads)
        it.join();
    unsigned long cases = 0;
    for (const unsigned long it : counted)
        cases += it;
    std::cout << cases << '\n';
}
