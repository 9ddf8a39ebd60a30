"""The built programs of a checkout, each beside a file with the sum of the sources that it was built of.

`./tsp` runs a program where nothing of the sources has changed since the time of that file, which is the
time at which the build began. `is_current` decides where something has.
"""
from __future__ import annotations

import hashlib
import os
import shutil
import time
from pathlib import Path

from build.sources import PROGRAM, ROOT

OUT = ROOT / "crates" / PROGRAM / "out"
PROVED = OUT / PROGRAM
QUICK = OUT / "quick" / PROGRAM


def sum_file(program: Path) -> Path:
    """The file with the sums of a program."""
    return Path(f"{program}.sum")


def seconds_file(program: Path) -> Path:
    """The file with the seconds that the build of a program took."""
    return Path(f"{program}.seconds")


def sums(program: Path, sources: str) -> str:
    """What that file has: the sum of the sources, and that of the program itself."""
    return f"{sources} {hashlib.sha256(program.read_bytes()).hexdigest()}\n"


def seal(program: Path, sources: str, begun: float) -> None:
    """Says that the program is built of these sources, as they were at this time."""
    sum_file(program).write_text(sums(program, sources))
    for path in (program, sum_file(program)):
        os.utime(path, (begun, begun))


def put(made: Path, program: Path, sources: str, begun: float) -> None:
    """Puts a program to its place. (It is copied beside it first, so that a program which is there is whole.)"""
    program.parent.mkdir(parents=True, exist_ok=True)
    new = program.with_name(f"{program.name}.new")
    shutil.copy(made, new)
    sum_file(program).unlink(missing_ok=True)
    new.replace(program)
    seal(program, sources, begun)
    seconds_file(program).write_text(f"{time.time() - begun:.0f}\n")


def is_current(program: Path, sources: str) -> bool:
    """Whether the program is there, and of these sources."""
    try:
        return sum_file(program).read_text() == sums(program, sources)
    except OSError:
        return False
