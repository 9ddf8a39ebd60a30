"""The record of a run of ./check as JSON: `./check --record FILE`.

    date, commit, toolchain    the day (UTC), the commit, with `changed` where files of it were, and `rt version`
    machine                    processor, cores, memory (GB) and system
    minutes, processor_minutes the time of the run, and that of all processors
    proved, kept               how many crates were proved in this run, and how many an earlier run had proved
    passed, failed, skipped    the counts of all suites
    suites                     by name: these counts, and seconds
    lacking                    what was skipped, with what it needs
    sources                    the sums of the sources of the program and the library
    built                      by name: the SHA-256 of what was built
    builds                     the seconds of the last builds of this checkout by ./tsp and by ./build, if there were any

docs/check.json is the record from which scripts/figures writes the figures of pages, and which a release carries.
"""
from __future__ import annotations

import hashlib
import json
import os
import platform
import re
import resource
import time
from collections.abc import Iterable
from dataclasses import dataclass, field
from pathlib import Path
from typing import Any

from build.program import PROVED, QUICK, seconds_file
from build.sources import LIBRARY, PROGRAM, said, sum_of
from build.statements import MODULES
from check.suites import Outcome
from counts import SKIPPED
from release.kept import place_of

OF_CRATE = re.compile(r"^rt: (\w+) (proved|is kept: .*)$", re.M)


def machine() -> dict[str, Any]:
    """What the run was on."""
    told = Path("/proc/cpuinfo").read_text() + Path("/proc/meminfo").read_text()
    name = re.search(r"^model name\s*: (.*)$", told, re.M)
    memory = re.search(r"^MemTotal:\s+(\d+) kB", told, re.M)
    return {
        "processor": " ".join(name[1].split()) if name else platform.machine(),
        "cores": len(os.sched_getaffinity(0)),
        "memory": round(int(memory[1]) / 2**20) if memory else None,
        "system": f"{platform.system()} {platform.release()}",
    }


def built() -> dict[str, str]:
    """The sums of what was built: the proved programs, and what ./release keeps of the toolchain's files."""
    paths = [PROVED, PROVED.with_name(f"{PROVED.name}.by-rattle")]
    for name in (LIBRARY, PROGRAM):
        paths += [place_of(name), place_of(name).with_name(MODULES[name])]
    return {path.name: hashlib.sha256(path.read_bytes()).hexdigest() for path in paths if path.is_file()}


def builds() -> dict[str, int]:
    """The seconds that the last builds took."""
    files = {"tsp": seconds_file(QUICK), "build": seconds_file(PROVED)}
    return {name: int(file.read_text()) for name, file in files.items() if file.is_file()}


def processor_seconds() -> float:
    """The time that all processes of this run have taken so far, in seconds."""
    uses = [resource.getrusage(who) for who in (resource.RUSAGE_SELF, resource.RUSAGE_CHILDREN)]
    return sum(use.ru_utime + use.ru_stime for use in uses)


@dataclass
class Record:
    """A run that has begun: the commit is the one of its beginning."""

    begun: float = field(default_factory=time.time)
    commit: str = field(default_factory=lambda: said("git", "rev-parse", "HEAD") or "unknown")
    changed: bool = field(default_factory=lambda: said("git", "describe", "--always", "--exclude=*", "--dirty=-changed").endswith("-changed"))
    sources: dict[str, str] = field(default_factory=lambda: {name: sum_of(name) for name in (PROGRAM, LIBRARY)})

    def told(self, outcomes: Iterable[Outcome]) -> dict[str, Any]:
        """What the run came to."""
        outcomes = list(outcomes)
        crates = dict(OF_CRATE.findall("".join(outcome.said for outcome in outcomes if outcome.name == "proofs")))
        counts = ("passed", "failed", "skipped")
        suites = {it.name: {**{count: getattr(it, count) for count in counts}, "seconds": round(it.seconds, 1)} for it in outcomes}
        return {
            "date": time.strftime("%Y-%m-%d", time.gmtime(self.begun)),
            "commit": self.commit,
            "changed": self.changed,
            "toolchain": said("rt", "version"),
            "machine": machine(),
            "minutes": round((time.time() - self.begun) / 60, 1),
            "processor_minutes": round(processor_seconds() / 60, 1),
            "proved": sum(told == "proved" for told in crates.values()),
            "kept": sum(told != "proved" for told in crates.values()),
            **{count: sum(getattr(it, count) for it in outcomes) for count in counts},
            "suites": suites,
            "lacking": [line.removeprefix(SKIPPED) for it in outcomes for line in it.said.splitlines() if line.startswith(SKIPPED)],
            "sources": self.sources,
            "built": built(),
            "builds": builds(),
        }

    def write(self, outcomes: Iterable[Outcome], path: Path) -> None:
        """Writes the record to a file."""
        path.write_text(json.dumps(self.told(outcomes), indent=1) + "\n")
