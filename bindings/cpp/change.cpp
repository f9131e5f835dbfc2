/* Prints each argument as a locale in Britain's form, with the Buddhist calendar, or why it is none:
 *
 *     $ change en-us en-
 *     en-GB-u-ca-buddhist
 *     Invalid subtag: 'en-' at 3..3: a script, a region, a variant or an extension may stand here
 */
#include "icu_locale.hpp"

#include <iostream>

int main(int count, char **words)
{
    bool failed = false;
    for (int i = 1; i < count; i++) {
        try {
            icu_locale::locale locale(words[i]);
            locale.set_region("GB");
            locale.set_keyword("ca", "buddhist");
            std::cout << locale << '\n';
        } catch (const icu_locale::error &refused) {
            std::cout << refused.what() << '\n';
            failed = true;
        }
    }
    return failed;
}
