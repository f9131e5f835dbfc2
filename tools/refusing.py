"""Makes the C library once more for tests: with bindings/c/refusing.c between it and malloc, so that its requests for
memory can be refused; with bindings/c/guarding.c there, so that no byte beside a block can be touched; or as one that says
that it is of another header.

The code of the library is the same: of libicu_locale.a only names are changed."""
import os
import subprocess

from common import TOP

MADE = TOP / "out" / "bindings"


def call(*words):
    """Runs a command that is to succeed."""
    ran = subprocess.run([*map(str, words)], capture_output=True, text=True)
    if ran.returncode:
        raise SystemExit(f"{ran.stdout}{ran.stderr}{words[0]} failed\n0 passed, 1 failed")


def make_shim(folder):
    """Makes what is preloaded into a program, to refuse one of its requests for memory and to count them."""
    shim = f"{folder}/refuse_nth.so"
    call(os.environ.get("CC") or "cc", "-O1", "-shared", "-fPIC", "-o", shim, TOP / "tools" / "refuse_nth.c", "-ldl")
    return shim


def make_with(folder, source, renamed):
    """Makes libicu_locale.a and libicu_locale.so in the folder: the library in out/bindings with these names changed, and
    this file of C. Returns the first."""
    compiler, objcopy, ar = (os.environ.get(it) or it.lower() for it in ("CC", "OBJCOPY", "AR"))
    folder.mkdir(parents=True, exist_ok=True)
    static, whole, more = folder / "libicu_locale.a", folder / "icu_locale.o", folder / "more.o"
    if static.exists():
        static.unlink()
    call(objcopy, *(f"--redefine-sym={old}={new}" for old, new in renamed.items()), MADE / "icu_locale.o", whole)
    call(compiler, "-std=c99", "-O1", "-fPIC", "-Wall", "-Wextra", f"-I{TOP}/include", "-c", source, "-o", more)
    call(ar, "rcs", static, whole, more)
    call(compiler, "-shared", "-o", folder / "libicu_locale.so", whole, more)
    return static


def make_own_malloc(folder, name):
    """Makes the library whose requests a test can refuse (bindings/c/refusing.h), or the one whose blocks stand beside pages
    that end the program (guarding.h)."""
    renamed = {it: f"{name}_{it}" for it in ("malloc", "realloc", "free")}
    return make_with(folder, TOP / "bindings" / "c" / f"{name}.c", renamed)


def make_another(folder):
    """Makes a library that says that it is of another header."""
    folder.mkdir(parents=True, exist_ok=True)
    (folder / "another.c").write_text('#include "icu_locale.h"\nuint32_t icu_locale_version(void) { return 1000; }\n')
    return make_with(folder, folder / "another.c", {"icu_locale_version": "icu_locale_own_version"})
