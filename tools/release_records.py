"""What stands beside the files of a release: their checksums, and what each is proved by."""
import hashlib
import subprocess

from common import TOP, below, crates_of

RECORDS = ("SHA256SUMS", "PROVED.txt")
# Which crates are compiled into a file, by how its name begins. No crate: it is made of sources that are not compiled.
LIBRARY, PROGRAMS, MODULE = ("icu_locale_c",), ("locale_normal", "locid"), ("locale_web",)
INSIDE = {
    "icu-locale-core-": (), "libicu-locale1_": LIBRARY, "libicu-locale-dev_": LIBRARY, "locale-normal_": PROGRAMS,
    "python3-icu-locale_": (), "icu-locale-sqlite3_": (), "postgresql-15-ulocale_": (), "icu-locale-web-": MODULE,
    "icu_locale_c-": LIBRARY,
}
# Files of which nothing is compiled from a crate, and why.
NO_CRATE = {
    "icu-locale-core-": "the sources of all crates",
    "python3-icu-locale_": "a wrapper, tested and not proved; it loads the library of libicu-locale1",
    "icu-locale-sqlite3_": "a wrapper, tested and not proved; it loads the library of libicu-locale1",
    "postgresql-15-ulocale_": "a wrapper, tested and not proved; it loads the library of libicu-locale1",
    ".crate": "a wrapper, tested and not proved; it links an installed library",
}
BESIDE = {
    "icu-locale-web-": "the scripts around the module are tested, not proved; nor is the form for 32-bit memory, which wasm-opt makes",
    ".whl": "the Python scripts, _quick and the SQLite extension around the library are tested, not proved",
    "libicu-locale-dev_": "icu_locale.hpp is tested, not proved",
}


def sum_of(path):
    return hashlib.sha256(path.read_bytes()).hexdigest()


def files(folder):
    """Returns the files of a release, without what stands beside them."""
    return sorted(it for it in folder.iterdir() if it.name not in RECORDS)


def sums(folder):
    """Returns SHA256SUMS, as `sha256sum -c` reads it."""
    every = sorted(it for it in folder.iterdir() if it.name != "SHA256SUMS")
    return "".join(f"{sum_of(it)}  {it.name}\n" for it in every)


def said(name, table):
    """Returns what a table says of a file, by how its name begins or ends; or None."""
    return next((it for part, it in table.items() if name.startswith(part) or name.endswith(part)), None)


def crates_in(name):
    """Returns the crates that are compiled into a file: ours with all below them, and those of the toolchain that they name."""
    if said(name, NO_CRATE):
        return [], []
    lines = crates_of(TOP / "crates.txt")
    ours = list(dict.fromkeys(it for top in said(name, INSIDE) for it in below(top, lines)))
    named = {word for it in ours for word in lines[it].split(":", 1)[1].split()}
    return ours, sorted(named - set(lines))


def toolchain_line():
    return subprocess.run(["rt", "version"], check=True, stdout=subprocess.PIPE, universal_newlines=True).stdout.strip()


def proved(folder, release, gate):
    """Returns PROVED.txt. `gate` is what ./test wrote when it passed: the commit, the toolchain and the lines of rt ci."""
    lines = [f"icu_locale_core {release.version}", f"commit {release.commit}", f"toolchain {toolchain_line()}", ""]
    if gate is None:
        lines += ["NOTHING HERE IS PROVED: tools/release --unproved made these files, for trials. Do not publish them.", ""]
    for it in files(folder):
        ours, named = crates_in(it.name)
        more = said(it.name, NO_CRATE) or said(it.name, BESIDE)
        lines += [it.name] + [f"  crates: {' '.join(ours)}"] * bool(ours) + [f"  crates of the toolchain: {' '.join(named)}"] * bool(named)
        lines += [f"  {more}"] * bool(more)
    if gate is not None:
        lines += ["", "What rt ci said of each crate, when ./test passed on this commit. It proves each function of a crate, or says that",
                  "it proved the same files before. Anybody with the toolchain may run it again, or rt verdict in crates/NAME.", ""]
        lines += gate.split("\n")[2:]
    return "\n".join(lines).rstrip("\n") + "\n"
