"""Locales as columns have them, for bindings/sqlite/speed and bindings/postgres/speed: mostly a language and a region, in
mixed case; one in five with keywords. Each run makes the same lines."""
import random

LANGUAGES = "en de fr es pt zh ja ko ru ar hi it nl pl sv tr uk vi he fa sr uz az ca eu gl fil kok yue".split()
REGIONS = "US GB DE AT CH FR CA ES MX BR PT CN TW HK JP KR RU EG IN IT NL PL SE TR UA VN IL IR RS UZ AZ PH 419 001".split()
SCRIPTS = "Latn Cyrl Arab Hans Hant".split()
KEYWORDS = ["u-ca-buddhist", "u-nu-latn", "u-hc-h12", "u-co-phonebk", "u-ca-gregory-nu-arab", "t-en-latn", "u-kn", "x-app"]


def made(choices):
    """Returns one locale."""
    parts = [choices.choice(LANGUAGES)]
    for share, words in ((0.15, SCRIPTS), (0.85, REGIONS), (0.2, KEYWORDS)):
        if choices.random() < share:
            parts.append(choices.choice(words))
    text = "-".join(parts)
    return choices.choice((text, text, text.lower(), text.upper()))


def make_locales(path, number):
    """Writes so many locales to the file, one in each line."""
    choices = random.Random(7)
    path.write_text("".join(f"{made(choices)}\n" for _ in range(number)), encoding="ascii")
