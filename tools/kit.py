"""The toolchain's command rt, loaded as a module: `rt` itself and `rtlib`, on which it stands. A new toolchain may change them.

A crate's stamp, by which rt sees whether its library is that of the present text, is asked for once in each run of a tool."""
import functools
import os
import pathlib
import shutil
import sys

from common import loaded, toolchain


toolchain(os.path.basename(sys.argv[0]))
rt = loaded(os.path.realpath(shutil.which("rt")))
rtlib = rt.rtlib
rtlib.Crate.stamp = functools.lru_cache(maxsize=None)(rtlib.Crate.stamp)


def read(path):
    """Returns the bytes of the file, or none where there is no file."""
    return pathlib.Path(path).read_bytes() if os.path.isfile(path) else b""


def lanes():
    """Returns how many checks run side by side: RT_JOBS of them, or one a processor."""
    number = os.environ.get("RT_JOBS", "")
    return int(number) if number.isdigit() and int(number) else rt.processors()


# What rt.must_fail answers of an edit that is refused; an older one only says that it is.
AT_LIMIT = getattr(rt, "AT_LIMIT", "limit")
REFUSALS = (True, getattr(rt, "REFUSED", True), AT_LIMIT)
TOOLCHAIN = read(f"{rt.KIT}/KIT-ID").decode().strip()
# The logic alone, without the kit's own name. Kits of one logic may still differ in what their tactics
# find and in what their library promises (docs/GATE.md says what that means for edits).
LOGIC = TOOLCHAIN.partition(" ")[2]
