// What ICU4C answers for each line of the standard input.
//   icu4c tag       icu::Locale::forLanguageTag(text), then toLanguageTag
//   icu4c builder   icu::LocaleBuilder().setLanguageTag(text).build(), then toLanguageTag
//   icu4c version   the version
#include <cstdio>
#include <iostream>
#include <string>
#include <unicode/localebuilder.h>
#include <unicode/locid.h>
#include <unicode/uclean.h>
#include <unicode/uversion.h>

static std::string answer(const std::string &mode, const std::string &text) {
    UErrorCode status = U_ZERO_ERROR;
    icu::StringPiece piece(text.data(), static_cast<int32_t>(text.size()));
    icu::Locale locale;
    if (mode == "tag") {
        locale = icu::Locale::forLanguageTag(piece, status);
    } else {
        locale = icu::LocaleBuilder().setLanguageTag(piece).build(status);
    }
    if (U_FAILURE(status)) {
        return std::string("! ") + u_errorName(status);
    }
    std::string made = locale.toLanguageTag<std::string>(status);
    return U_FAILURE(status) ? std::string("! printing: ") + u_errorName(status) : made;
}

int main(int count, char **words) {
    std::string mode = count > 1 ? words[1] : "tag";
    if (mode == "version") {
        UVersionInfo version;
        u_getVersion(version);
        std::printf("ICU4C %d.%d\n", version[0], version[1]);
        return 0;
    }
    for (std::string line; std::getline(std::cin, line);) {
        std::cout << answer(mode, line) << "\n" << std::flush;
    }
}
