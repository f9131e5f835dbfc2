"""Prints the normal text of each argument as a locale, or why there is none."""

import sys

from icu_locale_c import LocaleError, normalize


def main():
    failed = False
    for text in sys.argv[1:]:
        try:
            print(normalize(text))
        except LocaleError as refusal:
            print(refusal)
            failed = True
    return failed


sys.exit(main())
