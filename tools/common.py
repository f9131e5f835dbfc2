"""What the scripts share: the top folder, the words they are started with, messages, files, counts, and crates.txt.

It needs nothing but Python, so that --help answers on a machine without the toolchain."""
import argparse
import contextlib
import importlib.machinery
import importlib.util
import os
import pathlib
import re
import shutil
import subprocess
import sys

ROOT = os.path.dirname(os.path.dirname(os.path.realpath(__file__)))
TOP = pathlib.Path(ROOT)
# The words of the program for what a line is read as.
MODES = ("langid", "locale", "data")
# The status after Ctrl-C.
STOPPED = 130


class Parser(argparse.ArgumentParser):
    """As argparse's, but an error ends with where to read more."""

    def error(self, message):
        more = f"{self.prog}: {message}. {self.prog} --help says what it takes.\n"
        self.exit(2, self.format_usage() + more)

    def flag(self, name, text):
        """Adds an option that is given or not."""
        self.add_argument(name, action="store_true", help=text)

    def only(self, given, known, message):
        """Returns what is given, or all that is known where nothing is; ends the script where one is not known."""
        for it in [it for it in given if it not in known]:
            self.error(message.format(it))
        return given or [*known]


def parser(name, doc):
    """Returns a parser of the words of the script of that name, whose help is the script's text."""
    form = argparse.RawDescriptionHelpFormatter
    return Parser(prog=name, description=doc, formatter_class=form, allow_abbrev=False)


def loaded(path):
    """Returns a script as a module, by its path in the repository or its whole path."""
    loader = importlib.machinery.SourceFileLoader(os.path.basename(path), os.path.join(ROOT, path))
    made = importlib.util.module_from_spec(importlib.util.spec_from_loader(loader.name, loader))
    loader.exec_module(made)
    return made


def stop(name, what, then, status=1):
    """Ends the script: what happened to what, and what to do next."""
    print(f"{name}: {what}. {then}", file=sys.stderr)
    sys.exit(status)


def say(text):
    """Says how far the script is."""
    print(f"{os.path.basename(sys.argv[0])}: {text}", file=sys.stderr, flush=True)


def start(main, stopped="stopped: the same command goes on from what is kept"):
    """Runs a script, and ends with its status; or after Ctrl-C with these words, which are those of one that may prove."""
    try:
        sys.exit(main())
    except KeyboardInterrupt:
        say(stopped)
        sys.exit(STOPPED)


def ends_well(script, *words):
    """Runs a script of ours that may prove, and returns whether it ends well. Ctrl-C stops both, and the script says so."""
    child = subprocess.Popen([os.path.join(ROOT, script), *words])
    while child.returncode is None:
        with contextlib.suppress(KeyboardInterrupt):
            child.wait()
    if child.returncode == STOPPED:
        sys.exit(STOPPED)
    return child.returncode == 0


def toolchain(name):
    """Ends the script with what to install, unless the toolchain's command rt can be found."""
    if not shutil.which("rt"):
        then = "Install the Rattle toolchain, and put its folder bin/ on the PATH."
        stop(name, "no command rt was found on the PATH", then)


def read(path, errors="strict"):
    """Returns the text of a file, by its path in the repository or its whole path."""
    return pathlib.Path(ROOT, path).read_text(encoding="utf-8", errors=errors)


def rows_of(path):
    """Returns the lines of a table that are neither blank nor comments."""
    return [it for it in read(path).splitlines() if it.strip() and it[0] != "#"]


def write(path, text):
    """Gives a file this text, by its path in the repository or its whole path."""
    pathlib.Path(ROOT, path).write_text(text, encoding="utf-8")


def differing(texts):
    """Returns the paths of these files, each with the text that it ought to have, that have another text or none."""
    return [it for it, text in texts.items() if not os.path.isfile(os.path.join(ROOT, it)) or read(it) != text]


def files_below(folder, left_out=()):
    """Yields the paths of all files below a folder, but for those in folders of these names; none where it is not there."""
    for at, folders, names in os.walk(folder):
        folders[:] = [it for it in folders if it not in left_out]
        yield from (f"{at}/{it}" for it in names)


class Ending:
    """What is to be ended where a `with` ends."""

    def __enter__(self):
        return self

    def __exit__(self, *_):
        self.end()


class Counts:
    """The cases so far."""

    passed = failed = 0

    def see(self, name, is_right, why=""):
        """Counts a case, and says what is wrong with it."""
        self.add(bool(is_right), not is_right)
        if not is_right:
            print(f"{name}: {why}" if why else name, flush=True)

    def see_all(self, faults):
        """Counts each of these faults and says it, or one case that is right if there is none."""
        for it in faults:
            self.see(it, False)
        self.passed += not faults

    def add(self, passed, failed):
        self.passed, self.failed = self.passed + passed, self.failed + failed

    def end(self):
        """Prints the last line, and returns the status."""
        return counted(self.passed, self.failed)


class Cases(Counts):
    """The cases so far, of which one name may stand for many. It says of each whether it is as wanted."""

    def see(self, name, wrong="", number=1):
        """Counts this number of cases, or one that failed, with what is wrong."""
        self.add(0 if wrong else number, bool(wrong))
        print(f"{name}: {wrong or f'{number} as wanted'}", flush=True)


def counted(passed, failed):
    """Prints the last line of a test, and returns its status."""
    print(f"{int(passed)} passed, {int(failed)} failed")
    return 1 if failed or not passed else 0


def reached(first, leads_to):
    """Returns these and all that they lead to, if by way of more."""
    seen, waiting = {}, [*first]
    while waiting:
        it = waiting.pop()
        if it not in seen:
            seen[it] = True
            waiting += leads_to(it)
    return [*seen]


def first_sentence(text):
    found = re.match(r"(.+?[.!])(?= [A-Z`]|$)", text)
    return (found[1] if found else text).strip()


def without_prefix(text, prefix):
    """Returns the text without this beginning, if it begins so: str.removeprefix, which Python 3.8 has not."""
    return text[len(prefix) :] if text.startswith(prefix) else text


def without_suffix(text, suffix):
    """Returns the text without this end, if it ends so: str.removesuffix, which Python 3.8 has not."""
    return text[: len(text) - len(suffix)] if text.endswith(suffix) else text


def crates_of(path):
    """Returns the lines of a crates.txt by their crates, lowest first as they stand, or none where
    there is no such file."""
    if not os.path.isfile(path):
        return {}
    texts = [line.split("#")[0].strip() for line in read(os.path.abspath(path)).split("\n")]
    return {it.split(":")[0].split()[0]: it for it in texts if ":" in it}


def below(name, lines, found=None):
    """Returns the crates of the repository that this one stands on, lowest first, and it."""
    found = [] if found is None else found
    if name in lines and name not in found:
        for dep in lines[name].split(":", 1)[1].split():
            below(dep, lines, found)
        found.append(name)
    return found
