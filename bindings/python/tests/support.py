"""What several tests of the package use: examples, distances by rule, and Pythons that have a module."""

import functools
import shutil
import subprocess
import sys
import unittest
from math import isqrt
from pathlib import Path

import yokecairn

PACKAGE = Path(__file__).resolve().parents[1]
ROOT = PACKAGE.parents[1]
EXAMPLES = ROOT / "examples"
GALLERY = EXAMPLES / "gallery"

RECTANGLE = (
    "NAME : rectangle\nTYPE : TSP\nDIMENSION : 4\nEDGE_WEIGHT_TYPE : EUC_2D\n"
    "NODE_COORD_SECTION\n1 0 0\n2 3 0\n3 3 4\n4 0 4\nEOF\n"
)

UNIT = 10**9


def distance(kind, a, b):
    """The distance of two points in counts of 10^-9, from docs/format.md in whole numbers."""
    apart = [abs(p - q) for p, q in zip(a, b)][: 3 if kind.endswith("3D") else 2]
    square = sum(d * d for d in apart)
    if kind in ("CEIL_2D", "ATT"):
        part = -(-square // 10) if kind == "ATT" else square
        return isqrt(part - 1) // UNIT + 1 if part else 0
    if kind.startswith("EUC"):
        return (isqrt(4 * square) + UNIT) // (2 * UNIT)
    twice = 2 * (sum(apart) if kind.startswith("MAN") else max(apart))
    return (twice + UNIT) // (2 * UNIT)


def fault_of(text):
    """The fault of a text, or None."""
    try:
        yokecairn.parse(text)
    except yokecairn.Fault as fault:
        return fault
    return None


def report_in(text):
    """The report that a text is, by its lines as docs/format.md has them."""
    first, *lines = text.split("\n")[:-1]
    parts = [line.partition(" ") for line in lines]
    words = ("nodes", "routes", "least", "length", "bound", "gap")
    found = {word: int(rest) for word, _, rest in parts if word in words and rest != "none"}
    verdict, *reason = lines[-1].split(" ")
    return yokecairn.Report(
        yes=verdict == "yes",
        type=first.partition(" ")[2],
        not_judged=tuple(line.partition(" judged ")[2] for line in lines if line.startswith("not judged ")),
        optimal="optimal" in lines,
        no_tour="bound none" in lines,
        reason=reason[0] if reason else None,
        numbers=tuple(map(int, reason[1:])),
        text=text,
        **{**{word: found.get(word) for word in words}, **({"gap": 0} if "optimal" in lines else {})},
    )


@functools.lru_cache(None)
def python_with(*modules):
    """A Python that has these modules: this one, the first on the PATH, or the system's; else a test is
    skipped."""
    for python in (sys.executable, shutil.which("python3"), "/usr/bin/python3"):
        words = [python, "-c", "import " + ", ".join(modules)]
        if python and shutil.which(python) and not subprocess.run(words, capture_output=True).returncode:
            return python
    return None


def needs_python_with(*modules):
    """Skips a test where no Python has these modules."""
    missing = python_with(*modules) is None
    packages = " ".join(f"python3-{module}" for module in modules)
    return unittest.skipIf(missing, f"no Python has {' and '.join(modules)}: apt-get install {packages}")


def needs(module, in_debian=True):
    """Skips a test where a module isn't installed, which Debian has as a package or hasn't."""
    try:
        __import__(module)
    except ImportError:
        package = f", or apt-get install python3-{module}" if in_debian else ""
        return unittest.skip(f"{sys.executable} has no {module}: pip install {module}{package}")
    return lambda test: test
