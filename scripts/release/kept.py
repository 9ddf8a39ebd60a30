"""The toolchain's files of the crates, which are kept outside the checkout: the static library's archive, the program's
object, and beside each its module for LLVM."""
from __future__ import annotations

import fcntl
import hashlib
import os
import subprocess
import sys
import tempfile
from collections.abc import Iterator
from contextlib import contextmanager
from pathlib import Path

from build import statements
from build.sources import LIBRARY, NATIVE, PROGRAM, ROOT, SYSTEMS, identity, lay_out, sum_of
from build.statements import MADE, MODULES
from release.origin import say, told


def kept() -> Path:
    """The folder in which the toolchain's files are kept."""
    base = os.environ.get("XDG_CACHE_HOME") or Path.home() / ".cache"
    return Path(base, "yokecairn")


def place_of(name: str, anew: Path | None = None) -> Path:
    """Where the toolchain's file of a crate is: in a folder, or else where it is kept. The program names its
    build, so it is another one for another commit."""
    named = [identity(), SYSTEMS[NATIVE]] if name == PROGRAM else []
    key = hashlib.sha256("\n".join([told("rt", "version"), sum_of(name), *named]).encode()).hexdigest()
    return (anew or kept() / key) / MADE[name]


def module_of(name: str, anew: Path | None = None) -> Path:
    """The module of a crate, which is kept beside its file."""
    module = place_of(name, anew).with_name(MODULES[name])
    if not module.exists():
        sys.exit(f"release: {module.name} isn't kept: remove {module.parent}, and call ./release again")
    return module


def prove(names: list[str], scratch: Path) -> None:
    """Has `rt ci` prove the crates below these in a folder, as many at once as there are cores, and leave their
    statements there. The crate of tests isn't among them."""
    lower = lay_out(statements.libraries(names), scratch)
    say(f"proving {len(lower)} crates for {' and '.join(MADE[name] for name in names)}")
    ran = subprocess.run(["rt", "ci"], cwd=scratch, stdin=subprocess.DEVNULL, capture_output=True, text=True, check=False)
    if ran.returncode:
        sys.exit(f"release: the crates aren't proved:\n{ran.stdout[-4000:]}{ran.stderr[-4000:]}")
    statements.mark(scratch)


@contextmanager
def locked(anew: Path | None) -> Iterator[None]:
    """One call makes the toolchain's files, and others wait for it."""
    folder = anew or kept()
    folder.mkdir(parents=True, exist_ok=True)
    with open(folder / "lock", "w") as lock:
        fcntl.flock(lock, fcntl.LOCK_EX)
        yield


def make_files(names: list[str], anew: Path | None = None) -> None:
    """Has the toolchain make its files of these crates, but those that are there."""
    with locked(anew), tempfile.TemporaryDirectory(prefix="yokecairn-release-") as folder:
        missing = [name for name in names if not place_of(name, anew).exists()]
        root = ROOT
        if missing and (anew or statements.lacking(missing, ROOT)):
            root = Path(folder)
            prove(missing, root)
        for name in missing:
            say(f"making {MADE[name]}")
            failure = statements.make(name, root, place_of(name, anew))
            if failure:
                sys.exit(f"release: {failure}")


def is_at_hand(names: list[str]) -> bool:
    """Whether these files are kept, or can be made without proving the crates below. Where not, a line says so."""
    missing = [name for name in names if not place_of(name).exists()]
    lacking = statements.lacking(missing, ROOT) if missing else []
    if lacking:
        say(f"there are no statements of {', '.join(lacking)} as they are")
    return not lacking


def tell_modules() -> bool:
    """Makes the files of the program and the library where they are at hand, and prints where their modules are; whether
    it does."""
    if not is_at_hand([PROGRAM, LIBRARY]):
        return False
    for name in (LIBRARY, PROGRAM):  # (others wait for the library)
        make_files([name])
    print("\n".join(str(module_of(name)) for name in (PROGRAM, LIBRARY)))
    return True
