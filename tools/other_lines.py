"""Lines from sources that the program was not tuned to: names and keywords of CLDR, and lists of the system.

Debian's `unicode-cldr-core` has CLDR, `locales` the locales of the C library, and `iso-codes` the subdivisions of countries.
None of their texts is kept here: the lines are read where these are installed."""
import json
import pathlib
import re

SUPPORTED = pathlib.Path("/usr/share/i18n/SUPPORTED")
SUBDIVISIONS = pathlib.Path("/usr/share/iso-codes/json/iso_3166-2.json")
KEY = re.compile(r'<key\b[^>]*\bname="(\w+)"')
TYPE = re.compile(r'<type\b[^>]*\bname="([0-9a-z-]+)"')


def names_in(folder):
    """Returns the names of locales in a folder of CLDR, with hyphens."""
    return [it.stem.replace("_", "-") for it in sorted(folder.glob("*.xml"))]


def keywords_of(path, names):
    """Yields a line for each type of a key, after the names in turn."""
    key, block = "", "t" if path.name.startswith("transform") else "u"
    for line in path.read_text(encoding="utf-8").splitlines():
        key = KEY.search(line)[1] if KEY.search(line) else key
        for kind in TYPE.findall(line):
            yield f"{names[hash_of(kind) % len(names)]}-{block}-{key}-{kind}"


def hash_of(word):
    """Returns a number of the word, the same in each run."""
    return sum(at * code for at, code in enumerate(word.encode(), 1))


def from_cldr(common):
    """Returns the names of CLDR's files, each of its keywords, its transforms, and the identifiers of its own tests."""
    names = names_in(common / "main")
    found = names + [it.stem for it in sorted((common / "testData" / "transforms").glob("*-t-*.txt"))]
    for path in sorted((common / "bcp47").glob("*.xml")):
        found += keywords_of(path, names)
    tests = common / "testData" / "localeIdentifiers" / "localeCanonicalization.txt"
    asked = [it for it in tests.read_text(encoding="utf-8").splitlines() if ";" in it and not it.startswith("#")]
    return found + [it.split(";")[0].strip() for it in asked]


def from_system():
    """Returns the locales of the C library, with and without their encoding, and a line for each subdivision."""
    found = []
    for line in SUPPORTED.read_text(encoding="utf-8").splitlines():
        name = line.split(" ")[0]
        found += [name, re.split("[.@]", name)[0].replace("_", "-")]
    for it in json.loads(SUBDIVISIONS.read_text(encoding="utf-8"))["3166-2"]:
        region, _, suffix = it["code"].partition("-")
        found.append(f"und-{region}-u-sd-{region.lower()}{suffix.lower()}")
    return found


def sources(folder):
    """Returns the lines of each source, each once, in order of the source."""
    found = {"CLDR": from_cldr(pathlib.Path(folder) / "common"), "system": from_system()}
    return {name: [it.encode() for it in dict.fromkeys(lines)] for name, lines in found.items()}
