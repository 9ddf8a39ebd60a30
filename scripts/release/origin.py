"""What a release is made of: its version, the commit and its time, and how it says so."""
from __future__ import annotations

import re
import subprocess
import sys
from pathlib import Path

from build.sources import LIBRARY, NATIVE, PROGRAM, ROOT, sum_of
from release import systems


def say(words: str) -> None:
    """Tells something of a release that is being made."""
    print("release:", words, file=sys.stderr, flush=True)


def told(*words: str, folder: Path | None = None) -> str:
    """What a command writes, in one line."""
    return subprocess.run(words, cwd=folder, check=True, capture_output=True, text=True).stdout.strip()


def version() -> str:
    """The version, which is the same in all places that name it."""
    grammar = (ROOT / "crates/tsp_tool/src/grammar.rt").read_text()
    found = re.search(r'const VERSION: &str = "(\d+)\.(\d+)\.(\d+)"', grammar)
    if found is None:
        sys.exit("release: grammar.rt of tsp_tool has no version")
    first, second, third = map(int, found.groups())
    number = 10000 * first + 100 * second + third
    if f"const VERSION_NUMBER: u32 = {number};" not in (ROOT / "crates/tsp_c/src/lib.rt").read_text():
        sys.exit(f"release: tsp_version isn't {number}, the number of {first}.{second}.{third}")
    return f"{first}.{second}.{third}"


def commit() -> str:
    """The commit, and whether the folder is as it says."""
    name = told("git", "rev-parse", "HEAD", folder=ROOT)
    changed = told("git", "status", "--porcelain", "--untracked-files=no", folder=ROOT)
    return name + (" with changes" if changed else "")


def moment() -> int:
    """The time of the commit, in seconds, which all files of the release get."""
    return int(told("git", "log", "-1", "--format=%ct", folder=ROOT))


def statement(system: str = NATIVE) -> str:
    """The file BUILT-FROM."""
    lines = [f"version {version()}", f"commit {commit()}", told("rt", "version"), systems.SYSTEMS[system].compiler()]
    lines += [told("ld", "--version").splitlines()[0], f"sources of tsp {sum_of(PROGRAM)}", f"sources of libtsp {sum_of(LIBRARY)}"]
    return "\n".join(lines + ([] if system == NATIVE else [f"system {system}", systems.CLAIM])) + "\n"
