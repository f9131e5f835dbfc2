/* Prints the normal form of each argument as a locale, or why there is none:
 *
 *     $ example en-us-u-CA-Buddhist en-
 *     en-US-u-ca-buddhist
 *     en-: Invalid subtag
 */
#include "icu_locale.hpp"

#include <iostream>

int main(int count, char **words)
{
    bool failed = false;
    for (int i = 1; i < count; i++) {
        const auto normal = icu_locale::try_normalize(words[i]);
        if (normal) {
            std::cout << *normal << '\n';
        } else {
            std::cout << words[i] << ": " << icu_locale::words(normal.status()) << '\n';
            failed = true;
        }
    }
    return failed;
}
