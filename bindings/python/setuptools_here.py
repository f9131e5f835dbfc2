"""setuptools.build_meta, with the setuptools and wheel of this machine, so that pip builds without a network.

pip hides what is installed from a build, and fetches what the build requires. Here the build requires nothing: both are
taken from the environment, from the Python below it, or from Debian's packages python3-setuptools and python3-wheel."""

import importlib.util
import pathlib
import sys
import sysconfig

_BASE = {"base": sys.base_prefix, "platbase": sys.base_prefix}
_PLACES = [sysconfig.get_path("purelib"), sysconfig.get_path("purelib", vars=_BASE), "/usr/lib/python3/dist-packages"]
for _name in ("setuptools", "wheel"):
    for _place in _PLACES:
        if importlib.util.find_spec(_name) is None and pathlib.Path(_place, _name).is_dir():
            sys.path.append(_place)
    if importlib.util.find_spec(_name) is None:
        sys.exit(f"icu_locale_c: there is no {_name}: install it (Debian: python3-{_name}), and run pip again")

from setuptools.build_meta import build_wheel, prepare_metadata_for_build_wheel  # noqa: E402

__all__ = ["build_wheel", "get_requires_for_build_wheel", "prepare_metadata_for_build_wheel", "build_sdist"]


def get_requires_for_build_wheel(config_settings=None):
    """Nothing is to be fetched."""
    return []


def build_sdist(sdist_directory, config_settings=None):
    raise NotImplementedError("the package is built in the repository, from bindings/python alone: pip install bindings/python")
