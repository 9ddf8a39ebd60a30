"""The proved program of a checkout, which `rt ci` makes."""
from __future__ import annotations

import re
import subprocess
import sys
import tempfile
import time
from pathlib import Path

from build.program import PROVED as PLACE
from build.program import put
from build.sources import PARTS, PROGRAM, lay_out, name_build, strange_logic, sum_of

# What `rt ci` runs the program on.
RUNS = ("args", "stdin", "stdout", "status", "data")
PROVED = re.compile(r"rt: (\w+) (?:proved|is kept: .*)$")
FAILED = 70


def say(words: str) -> None:
    """Tells something of a build."""
    print("tsp:", words, file=sys.stderr, flush=True)


def prove(scratch: Path, crates: int) -> list[str]:
    """Proves the crates of a folder and builds the program there; answers all that `rt` said."""
    begun, told, proved = time.monotonic(), [], set()
    with subprocess.Popen(["rt", "ci"], cwd=scratch, stdin=subprocess.DEVNULL, stdout=subprocess.PIPE, stderr=subprocess.STDOUT,
                          text=True, errors="replace") as run:
        for line in run.stdout or ():
            told.append(line)
            found = PROVED.match(line)
            if found and found[1] not in proved:
                proved.add(found[1])
                say(f"proved {found[1]}, {len(proved)} of {crates}, after {time.monotonic() - begun:.0f} s")
    return told


def build() -> int:
    """Proves the program and puts it to its place; the exit status."""
    if strange_logic():
        say(strange_logic())
    begun = time.time()
    with tempfile.TemporaryDirectory(prefix="tsp-build-") as folder:
        scratch = Path(folder)
        crates = len(lay_out([PROGRAM], scratch, (*PARTS, *RUNS)))
        sources = sum_of(PROGRAM, scratch)
        name_build(scratch)
        say(f"proving {crates} crates")
        told = prove(scratch, crates)
        made = scratch / "crates" / PROGRAM / "out" / PROGRAM
        if not made.exists():
            sys.stderr.writelines(told)
            say("the program is not proved")
            return FAILED
        put(made, PLACE, sources, begun)
    return 0
