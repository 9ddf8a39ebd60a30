"""What is made of a crate over the statements of the crates below it, which `rt ci` leaves in crates/NAME/out/rlib. So
nothing but the crate itself is proved again.

`rt lib` and `rt run` would prove each crate below once more, over the proofs of those below it. Of which sources the
statements are is in a file beside them.
"""
from __future__ import annotations

import hashlib
import os
import subprocess
import tempfile
from pathlib import Path

from build import toolchain
from build.program import PROVED, seal
from build.sources import LIBRARY, NATIVE, PROGRAM, ROOT, SYSTEMS, below, lay_out, name_build, sum_of

# The files that are made of each crate, and beside them their modules for LLVM.
MADE = {LIBRARY: "libtsp_c.a", PROGRAM: "tsp_tool.o"}
MODULES = {LIBRARY: "tsp_c.bc", PROGRAM: "tsp_tool.bc"}


def place_of(name: str, root: Path) -> Path:
    """Where `rt ci` leaves the statements of a crate."""
    return root / "crates" / name / "out" / "rlib" / f"{name}.rlib"


def libraries(names: list[str]) -> list[str]:
    """The crates below these, without these."""
    return [crate for crate in dict.fromkeys(it for name in names for it in below(name)) if crate not in names]


# ---- of which sources they are


def sum_of_both() -> str:
    """The sum of the sources of the program and the library."""
    return hashlib.sha256(" ".join(map(sum_of, (LIBRARY, PROGRAM))).encode()).hexdigest()


def mark(root: Path) -> None:
    """Says of which sources the statements are that a run of `rt ci` has just left in a folder."""
    for name in libraries([LIBRARY, PROGRAM]):
        if place_of(name, root).is_dir():
            place_of(name, root).with_name("sum").write_text(sum_of(name, root) + "\n")


def mark_proved(sources: str, begun: float | None = None) -> bool:
    """Marks the statements, and with a time the program too, that `rt ci` has left in this checkout, where the sources have
    still this sum; whether they have."""
    if sum_of_both() != sources:
        return False
    mark(ROOT)
    if begun is not None and PROVED.exists():
        seal(PROVED, sum_of(PROGRAM), begun)
    return True


def lacking(names: list[str], root: Path) -> list[str]:
    """The crates below these whose statements aren't there, or are of other sources."""

    def is_there(name: str) -> bool:
        said = place_of(name, root).with_name("sum")
        return place_of(name, root).is_dir() and said.exists() and said.read_text().strip() == sum_of(name)

    return [name for name in libraries(names) if not is_there(name)]


# ---- what is made


def make(name: str, root: Path, place: Path) -> str:
    """Makes the file of a crate over the statements in a folder, with its module beside it. Answers nothing, or
    else what the toolchain said in place of it."""
    rt = toolchain.command()
    with tempfile.TemporaryDirectory(prefix="tsp-over-") as folder:
        scratch = Path(folder)
        copy = scratch / "copy"
        copy.mkdir()
        lay_out([name], copy)
        if name == PROGRAM:
            name_build(copy, f", {SYSTEMS[NATIVE]}")
        crate = rt.Crate(str(copy / "crates" / name), str(copy), {})
        for lower in crate.below():
            lower.rlib = str(place_of(lower.name, root))
        # (one that gives way to others takes one processor, and the memory of one)
        jobs = 1 if os.nice(0) > 0 else min(4, len(os.sched_getaffinity(0)))
        words = [rt.rtlib.RATTLE, "build", *crate.words(["--jobs", str(jobs)], keeps=False)]
        words += ["--toolchain", toolchain.keeping_tools(scratch, ends=False), "--backend", "llvm", "-o", scratch / MADE[name]]
        ran = subprocess.run(words, cwd=crate.folder, stdin=subprocess.DEVNULL, capture_output=True, text=True, check=False)
        if ran.returncode or not (scratch / MADE[name]).exists():
            return f"{MADE[name]} isn't made:\n{ran.stdout[-4000:]}{ran.stderr[-4000:]}"
        place.parent.mkdir(parents=True, exist_ok=True)
        files = [(scratch / MADE[name], place)]
        if (scratch / toolchain.MODULE).exists():
            files.insert(0, (scratch / toolchain.MODULE, place.with_name(MODULES[name])))
        for made, to in files:
            # (beside it first, so that a file which is there is whole)
            new = to.with_name(f"{to.name}.new")
            new.write_bytes(made.read_bytes())
            new.replace(to)
    return ""
