"""The programs of producer/ as the release for Linux on x86-64 has them, and the licences of what is linked into them.

All libraries that have an archive are linked statically. TBB has none, so its library comes along, in lib/yokecairn.
"""
from __future__ import annotations

import hashlib
import os
import shutil
import subprocess
import sys
import tempfile
from pathlib import Path

from build.sources import ROOT
from release.kept import kept, locked
from release.origin import say, told

SOURCES = ROOT / "producer"
PROGRAMS = ("tsp-certify", "tsp-potentials")
HEADERS = ("coin/ClpSimplex.hpp", "CLI/CLI.hpp", "oneapi/tbb/task_group.h", "zlib.h")
PACKAGES = "cmake g++ gfortran coinor-libclp-dev libcli11-dev libtbb-dev zlib1g-dev"
# Whose code is in the programs, or beside them, and the package of Debian that has the licence.
LINKED = {
    "Clp": "coinor-libclp1", "CoinUtils": "coinor-libcoinutils3v5", "LAPACK": "liblapack3", "BLAS": "libblas3",
    "bzip2": "libbz2-1.0", "zlib": "zlib1g", "CLI11": "libcli11-dev", "oneTBB": "libtbb12", "gcc": "libstdc++6", "glibc": "libc6",
}
README = """bin/tsp-certify and bin/tsp-potentials contain code of these libraries, whose licences are in the files here:
{names}.
lib/yokecairn has oneTBB as Debian builds it. Clp and CoinUtils are used as they are, under the Eclipse Public License; their
sources are at https://github.com/coin-or and in Debian. gcc's libraries are under its exception. tsp-potentials is linked statically
with glibc (LGPL, version 2.1 or later); to link it with another one, build it from share/yokecairn/producer.
"""


def is_lacking() -> bool:
    """Whether a library that the programs are built with isn't there."""
    text = "".join(f"#include <{header}>\n" for header in HEADERS)
    words = ["c++", "-std=c++20", "-x", "c++", "-fsyntax-only", "-"]
    return subprocess.run(words, input=text, capture_output=True, text=True, check=False).returncode != 0


def place(anew: Path | None) -> Path:
    """Where what is built is kept: another place for other sources, or another compiler."""
    files = sorted(path for name in ("src", "CMakeLists.txt") for path in [SOURCES / name, *(SOURCES / name).rglob("*")] if path.is_file())
    files += [SOURCES / f"{name}.1" for name in PROGRAMS]
    sums = [f"{path.relative_to(SOURCES)} {hashlib.sha256(path.read_bytes()).hexdigest()}" for path in files]
    key = hashlib.sha256("\n".join([told("c++", "--version"), *sums]).encode()).hexdigest()
    return (anew or kept()) / f"producer-{key[:16]}"


def build(folder: Path) -> None:
    """Builds the programs, and installs them in a folder with their pages and TBB's library."""
    say("building tsp-certify and tsp-potentials")
    with tempfile.TemporaryDirectory(prefix="yokecairn-producer-") as name:
        scratch = Path(name)
        flags = f"-DCMAKE_CXX_FLAGS=-ffile-prefix-map={SOURCES}=producer -ffile-prefix-map={scratch}=build"
        jobs = str(len(os.sched_getaffinity(0)))
        calls: tuple[list[str | Path], ...] = (
            ["-S", SOURCES, "-B", scratch / "out", "-DPORTABLE=ON", "-DCMAKE_BUILD_TYPE=Release", flags],
            ["--build", scratch / "out", "--parallel", jobs, "--target", *PROGRAMS],
            ["--install", scratch / "out", "--prefix", scratch / "made", "--strip"],
        )
        for words in calls:
            ran = subprocess.run(["cmake", *words], stdin=subprocess.DEVNULL, capture_output=True, text=True, check=False)
            if ran.returncode:
                sys.exit(f"release: the producer isn't built:\n{ran.stdout[-4000:]}{ran.stderr[-4000:]}")
        folder.parent.mkdir(parents=True, exist_ok=True)
        shutil.copytree(scratch / "made", folder)


def put(top: Path, anew: Path | None) -> None:
    """Puts the programs into a release: bin, share/man/man1 and lib/yokecairn."""
    with locked(anew):
        if not place(anew).exists():
            build(place(anew))
    shutil.copytree(place(anew), top, dirs_exist_ok=True)


def put_licences(folder: Path) -> None:
    """The licences of the libraries whose code is in the programs."""
    folder.mkdir(parents=True)
    for name, package in LINKED.items():
        source = Path("/usr/share/doc", package, "copyright")
        if not source.exists():
            sys.exit(f"release: there is no {source}, the licence of {name}")
        shutil.copyfile(source, folder / f"{name}.txt")
    (folder / "README").write_text(README.format(names=", ".join(LINKED)))
