"""The archives of a release, whose bytes depend on nothing but their files: names are sorted, times, owners and modes fixed."""
import gzip
import io
import json
import os
import pathlib
import re
import subprocess
import tarfile

from common import TOP, files_below, read

# The time of each file of an archive that has no time of its own, as npm writes it: 26 October 1985.
NO_TIME = 499162500
# What the crate has of bindings/rust. Its examples need no file of the repository.
CRATE = ("Cargo.toml", "README.md", "build.rs", "src", "examples/change.rs", "examples/normalize.rs")


def tar(files, time=NO_TIME):
    """Returns a tar of these files, the bytes and whether it may be run by each name."""
    made = io.BytesIO()
    with tarfile.open(fileobj=made, mode="w", format=tarfile.USTAR_FORMAT) as archive:
        for name, (text, may_run) in sorted(files.items()):
            entry = tarfile.TarInfo(name)
            entry.size, entry.mtime, entry.mode = len(text), time, 0o755 if may_run else 0o644
            archive.addfile(entry, io.BytesIO(text))
    return made.getvalue()


def packed(files, time=NO_TIME):
    """Returns the tar of these files, compressed by gzip."""
    made = io.BytesIO()
    with gzip.GzipFile(filename="", fileobj=made, mode="wb", compresslevel=9, mtime=0) as out:
        out.write(tar(files, time))
    return made.getvalue()


def sources(commit, prefix):
    """Returns the sources of a commit as a tar: what git knows, each file with the time of the commit."""
    words = ["git", "-c", "tar.umask=0022", "archive", "--format=tar", f"--prefix={prefix}/", commit]
    return subprocess.run(words, cwd=TOP, check=True, stdout=subprocess.PIPE).stdout


def by_xz(text):
    """Returns a text, compressed by xz in one thread: with several the bytes would depend on their number."""
    return subprocess.run(["xz", "--threads=1", "-6", "--stdout"], input=text, check=True, stdout=subprocess.PIPE).stdout


def files_of(folder, prefix):
    """Returns the files below a folder, as `tar` takes them. None of them may be run."""
    return {f"{prefix}/{os.path.relpath(it, folder)}": (pathlib.Path(it).read_bytes(), False) for it in files_below(str(folder))}


def npm(folder, version):
    """Returns the package for npm: what bindings/web/build made in this folder, with this version."""
    files = files_of(folder, "package")
    told = json.loads(files["package/package.json"][0])
    told["version"] = version
    files["package/package.json"] = (f"{json.dumps(told, indent=2)}\n".encode(), False)
    return packed(files)


def crate(version):
    """Returns the Rust package, as cargo packs one."""
    rust, prefix = TOP / "bindings" / "rust", f"icu_locale_c-{version}"
    paths = [path for it in CRATE for path in ([rust / it] if (rust / it).is_file() else map(pathlib.Path, files_below(str(rust / it))))]
    files = {f"{prefix}/{it.relative_to(rust)}": (it.read_bytes(), False) for it in paths}
    files.update({f"{prefix}/{it}": ((TOP / it).read_bytes(), False) for it in ("LICENSE", "NOTICE")})
    told = re.sub(r'(?m)^version = ".*"$', f'version = "{version}"', read("bindings/rust/Cargo.toml"), count=1)
    files[f"{prefix}/Cargo.toml"] = (told.partition("\n[patch.")[0].encode(), False)
    return packed(files)
