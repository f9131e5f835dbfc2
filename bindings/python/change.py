"""Prints locales in Britain's form, with the Buddhist calendar: python3 change.py en-us prints en-GB-u-ca-buddhist."""

import sys

from icu_locale_c import Locale, LocaleError


def main():
    failed = False
    for text in sys.argv[1:]:
        try:
            locale = Locale(text)
            print(locale.replace(region="GB", keywords={**locale.keywords, "ca": "buddhist"}))
        except LocaleError as refusal:
            print(refusal)
            failed = True
    return failed


sys.exit(main())
