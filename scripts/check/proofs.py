"""The run of `rt ci` that proves every crate, and its critical path.

`rt ci` proves many crates at once, each after those below it: by itself as many as its estimate of their memory allows,
and here one on each processor. The critical path of a run is the chain of crates of which each began when the one
before it had ended. It says what would shorten the run.
"""
from __future__ import annotations

import os
import re
import shutil
import subprocess
import sys
import time
from collections.abc import Callable

from build import statements
from build.sources import ROOT, crates, strange_logic
from check.machine import free_memory, processors
from check.suites import Outcome, outcome_of

PROVED = re.compile(r"rt: (\w+) (proved|is kept: .*)$")
# The memory to plan on for each check; the largest takes 4.2 GB. By itself `rt ci` plans on up to 10 GB, by a crate's
# number of lines, and leaves processors idle.
MEMORY_OF_ONE = 9 << 29
Times = dict[str, float]


def side_by_side(cores: int, memory: int) -> int:
    """How many crates are checked at once: one on each processor, if memory holds as many."""
    return max(1, min(cores, memory // MEMORY_OF_ONE))


def environment() -> dict[str, str]:
    """The environment of `rt ci`, with that number. It keeps a number that is set, and has none if memory holds only
    one check: `rt ci` then decides."""
    checks = side_by_side(processors(), free_memory())
    return {**({"RT_JOBS": str(checks)} if checks > 1 else {}), **os.environ}


def critical_path(ends: Times, lower: dict[str, list[str]]) -> list[tuple[str, float]]:
    """The chain of crates up to the one that ended last, each with the seconds after the end of the one before it.
    Where two of those below a crate ended, the later one is in the chain."""
    chain: list[tuple[str, float]] = []
    name = max(ends, key=lambda crate: ends[crate], default="")
    while name:
        below = [crate for crate in lower.get(name, []) if crate in ends]
        before = max(below, key=lambda crate: ends[crate], default="")
        chain.append((name, ends[name] - ends.get(before, 0.0)))
        name = before
    return chain[::-1]


def told_path(ends: Times, kept: set[str], lower: dict[str, list[str]]) -> str:
    """The critical path in words."""
    proved = {name: end for name, end in ends.items() if name not in kept}
    if not proved:
        return "critical path: every crate was kept"
    steps = [f"{name} {seconds:.0f} s" for name, seconds in critical_path(proved, lower)]
    return f"critical path, {max(proved.values()):.0f} s: " + ", ".join(steps)


def prove(say: Callable[[str], None], proved: Callable[[str, str], None] = lambda crate, sources: None) -> Outcome:
    """Runs `rt ci`, and says what it says as it comes. Each crate that is proved is told, with the sum of the sources."""
    # (It would put back what a developer's own checks have left there, in place of the statements that it proves. They
    # are made again over those checks, in seconds each.)
    for folder in ROOT.glob("crates/*/out/rlib"):
        shutil.rmtree(folder)
    begun, lines = time.monotonic(), []
    ends: Times = {}
    kept: set[str] = set()
    sources, read = statements.sum_of_both(), time.time()
    if strange_logic():
        print("check:", strange_logic(), file=sys.stderr)
    with subprocess.Popen(
        ["rt", "ci"], cwd=ROOT, stdin=subprocess.DEVNULL, stdout=subprocess.PIPE, stderr=subprocess.STDOUT,
        text=True, errors="replace", env=environment(),
    ) as ran:
        for line in ran.stdout or ():
            say(line.rstrip("\n"))
            lines.append(line)
            if (found := PROVED.match(line)) and found[1] not in ends:
                ends[found[1]] = time.monotonic() - begun
                if found[2] != "proved":
                    kept.add(found[1])
                proved(found[1], sources)
    outcome = outcome_of("proofs", "".join(lines), ran.returncode)
    if not statements.mark_proved(sources, read):
        say("check: the sources have changed while they were proved")
        outcome.failed += 1
    say(told_path(ends, kept, {name: lower for name, (_, lower) in crates().items()}))
    outcome.seconds = time.monotonic() - begun
    return outcome
