"""Builds the wheel, with the library inside: YOKECAIRN_LIBRARY=PATH python3 setup.py bdist_wheel

The script recheck.py is put beside it: YOKECAIRN_RECHECK names it, where this folder isn't in its repository. All files in
the folder YOKECAIRN_LICENCES are put into yokecairn/licences; without it, those are the repository's own two.
YOKECAIRN_SYSTEM names the system of the library, one of SYSTEMS, where it isn't Linux on x86-64; then YOKECAIRN_VERSION
is the library's version, which else the library is asked for. Any Python 3 calls the library over ctypes. For Linux it
needs no glibc above 2.17.

./release runs it. tests/test_wheel.py builds a wheel twice and compares the bytes.
"""

import ctypes
import os
import shutil
from pathlib import Path

from setuptools import Distribution, setup
from setuptools.command.build_py import build_py
from wheel.bdist_wheel import bdist_wheel


LIBRARY = os.environ.get("YOKECAIRN_LIBRARY")
if not LIBRARY:
    raise SystemExit("setup.py: YOKECAIRN_LIBRARY has to be the path of libtsp.so")

RECHECK = os.environ.get("YOKECAIRN_RECHECK") or Path(__file__).resolve().parents[2] / "examples/recheck.py"


def licences():
    """The file of each licence, and its path in the package's folder of licences."""
    named = os.environ.get("YOKECAIRN_LICENCES")
    base = Path(named) if named else Path(__file__).resolve().parents[2]
    found = sorted(base.rglob("*") if named else base.glob("LICENSE-*"))
    files = {path: path.relative_to(base) for path in found if path.is_file()}
    if not files:
        raise SystemExit(f"setup.py: there is no licence in {base}")
    return files


# The tag of each system, and what the library is called in the package there.
SYSTEMS = {
    "linux-x86_64": ("manylinux2014_x86_64", "libtsp.so"),
    "linux-aarch64": ("manylinux2014_aarch64", "libtsp.so"),
    "windows-x86_64": ("win_amd64", "libtsp.dll"),
}
TAG, NAME = SYSTEMS[os.environ.get("YOKECAIRN_SYSTEM", "linux-x86_64")]


def version():
    """The library's version."""
    given = os.environ.get("YOKECAIRN_VERSION")
    if given:
        return given
    number = ctypes.CDLL(os.path.abspath(LIBRARY)).tsp_version()
    return f"{number // 10000}.{number // 100 % 100}.{number % 100}"


class Binary(Distribution):
    """A distribution for one kind of machine."""

    def has_ext_modules(self):
        return True


class WithLibrary(build_py):
    """Puts the library beside the modules."""

    def run(self):
        super().run()
        for source in (LIBRARY, RECHECK):
            place = Path(self.build_lib, "yokecairn", NAME if source is LIBRARY else "recheck.py")
            put(source, place)
        for source, place in licences().items():
            put(source, Path(self.build_lib, "yokecairn/licences", place))


def put(source, place):
    """Copies a file, with the same mode wherever it was."""
    place.parent.mkdir(parents=True, exist_ok=True)
    shutil.copyfile(source, place)
    place.chmod(0o644)


class AnyPython(bdist_wheel):
    """A wheel for any Python 3 on one system."""

    def get_tag(self):
        return "py3", "none", TAG


setup(version=version(), distclass=Binary, cmdclass={"build_py": WithLibrary, "bdist_wheel": AnyPython})
