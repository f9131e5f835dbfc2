"""Builds the wheel of icu_locale_c, with the library inside; with Python.h and a C compiler it also has the module _quick.

The library is out/bindings/libicu_locale.so, or the one that ICU_LOCALE_LIBRARY names. If there is none, this says what to
run: making it can take an hour, which an installation is not to begin by itself. The SQLite extension is put beside it, if
make in bindings/sqlite made it, or if ICU_LOCALE_SQLITE names it. With ICU_LOCALE_SYSTEM=1 neither is in the package, which then
loads the system's, as Debian's package does. With ICU_LOCALE_UNPROVED=1 the version says so.

Nothing is written beside the sources. With SOURCE_DATE_EPOCH the same sources and libraries give the same bytes."""

import atexit
import os
import pathlib
import re
import shutil
import sys
import tempfile

from setuptools import Extension, setup
from setuptools.command.build_py import build_py
from wheel.bdist_wheel import bdist_wheel

HERE = pathlib.Path(__file__).resolve().parent
TOP = HERE.parent.parent
PACKAGE = "icu_locale_c"
# What each library is called in the package, what names another file, and where it is else.
LIBRARIES = {
    "libicu_locale.so": ("ICU_LOCALE_LIBRARY", TOP / "out" / "bindings" / "libicu_locale.so"),
    "icu_locale_sqlite.so": ("ICU_LOCALE_SQLITE", TOP / "out" / "bindings" / "sqlite" / "icu_locale_sqlite.so"),
}


def version():
    number = (TOP / "VERSION").read_text(encoding="ascii").strip()
    return number + "+unproved" * (os.environ.get("ICU_LOCALE_UNPROVED") == "1")


def libraries():
    """Returns the libraries that the package has, by their names in it."""
    if os.environ.get("ICU_LOCALE_SYSTEM") == "1":
        return {}
    paths = {name: pathlib.Path(os.environ.get(variable) or path) for name, (variable, path) in LIBRARIES.items()}
    if not paths["libicu_locale.so"].is_file():
        print(f"icu_locale_c: there is no {paths['libicu_locale.so']}", file=sys.stderr)
        sys.exit(f"icu_locale_c: run {TOP}/bindings/build, or name the library by ICU_LOCALE_LIBRARY")
    return {name: path for name, path in paths.items() if path.is_file()}


def platform(folder):
    """Returns the platform tag of the libraries in the folder: of the newest version of glibc whose symbols they want."""
    texts = [it.read_bytes() for it in folder.rglob("*.so")]
    wanted = [int(it) for text in texts for it in re.findall(rb"\0GLIBC_2\.(\d+)", text)]
    return f"manylinux_2_{max(wanted + [5])}_x86_64"


class Package(build_py):
    """Puts the libraries and the version beside the scripts, each with the same mode wherever it is built."""

    def run(self):
        super().run()
        folder = pathlib.Path(self.build_lib) / PACKAGE
        (folder / "VERSION").write_text(f"{version()}\n", encoding="ascii")
        for name, path in libraries().items():
            shutil.copyfile(path, folder / name)
        for it in folder.iterdir():
            it.chmod(0o755 if it.suffix == ".so" else 0o644)


class Wheel(bdist_wheel):
    """A wheel for any Python 3, since ctypes loads the library, and _quick is of the stable interface."""

    def get_tag(self):
        return "py3", "none", platform(pathlib.Path(self.bdist_dir))

    def write_wheelfile(self, wheelfile_base, **more):
        for it in ("LICENSE", "NOTICE"):
            shutil.copyfile(TOP / it, pathlib.Path(wheelfile_base, it))
        super().write_wheelfile(wheelfile_base, **more)


os.umask(0o022)
os.chdir(HERE)
room = tempfile.mkdtemp(prefix="icu-locale-wheel-")
atexit.register(shutil.rmtree, room, ignore_errors=True)
quick = Extension(
    f"{PACKAGE}._quick", ["icu_locale_c/_quick.c"], py_limited_api=True, optional=True,
    extra_compile_args=["-std=c99", "-O2", "-g0"], extra_link_args=["-Wl,-s", "-Wl,-z,relro,-z,now"],
)
setup(
    version=version(), packages=[PACKAGE], package_data={PACKAGE: ["py.typed"]}, include_package_data=False,
    ext_modules=[quick], zip_safe=False,
    cmdclass={"build_py": Package, "bdist_wheel": Wheel},
    options={"build": {"build_base": room}, "egg_info": {"egg_base": room}},
)
