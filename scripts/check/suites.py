"""The suites of tests/suites.toml, and their runs beside each other."""
from __future__ import annotations

import heapq
import json
import os
import shutil
import subprocess
import sys
import tempfile
import threading
import time
import tomllib
from collections.abc import Callable, Iterable, Iterator
from dataclasses import dataclass, field
from pathlib import Path
from queue import SimpleQueue

from build.sources import ROOT

sys.path.append(str(ROOT / "tests/support"))

from counts import SKIPPED, Counted, counts_in  # noqa: E402

MANIFEST = ROOT / "tests/suites.toml"
FIRST = "repository"  # the folder of the suites that come first
RUNNING: set[subprocess.Popen[str]] = set()


@dataclass(frozen=True)
class Suite:
    """A suite of the manifest, which says what each field means."""

    name: str
    folder: str
    seconds: int
    script: str = ""
    words: tuple[str, ...] = ()
    on: tuple[str, ...] = ()
    proof: bool = False
    needs: dict[str, str] = field(default_factory=dict)
    nice: bool = False
    made: str = ""
    ahead: bool = False
    quiet: bool = False

    def command(self) -> list[str]:
        """Its script and words, without a program."""
        return [f"tests/{self.folder}/{self.script or self.name}", *self.words]

    def lacks(self) -> list[str]:
        """What has to be installed."""
        return sorted({package for tool, package in self.needs.items() if shutil.which(tool) is None})


@dataclass
class Outcome:
    """What came of a run: its counts, its time, and its cases where it told them."""

    name: str
    passed: int = 0
    failed: int = 0
    skipped: int = 0
    seconds: float = 0.0
    said: str = ""
    cases: list[dict[str, str]] = field(default_factory=list)

    def counts(self) -> str:
        """The counts, as the last line of a suite has them."""
        return str(Counted(self.passed, self.failed, self.skipped))


def manifest(path: Path = MANIFEST) -> list[Suite]:
    """The suites of the manifest, in its order."""
    tables = tomllib.loads(path.read_text())
    lists = {"words", "on"}
    return [Suite(name, **{key: tuple(it) if key in lists else it for key, it in fields.items()}) for name, fields in tables.items()]


def outcome_of(name: str, said: str, status: int) -> Outcome:
    """The counts of a suite that wrote this and ended with this status. One that ends in another way than its last line
    says has failed once more."""
    counted = counts_in(said)
    if counted is None:
        return Outcome(name, failed=1, said=f"{said}{name}: it ended with status {status}, without its counts\n")
    passed, failed, skipped = counted
    if status and not failed:
        failed, said = 1, f"{said}{name}: it ended with status {status}\n"
    return Outcome(name, passed, failed, skipped, said=said)


def skipped(name: str, needed: str) -> Outcome:
    """The outcome of a suite that isn't run."""
    told = {"name": name, "outcome": "skipped", "told": needed}
    return Outcome(name, skipped=1, said=f"{SKIPPED}{name}: {needed}\n", cases=[told])


def run(name: str, suite: Suite, more: list[str], nice: int = 0, built: str = "") -> Outcome:
    """Runs a suite with more words, with this much less of the processors than others. What it has built ahead is in a
    folder."""
    if lacking := suite.lacks():
        packages = " ".join(lacking)
        return skipped(name, packages if " " in packages and len(lacking) == 1 else f"apt-get install {packages}")
    begun = time.monotonic()
    with tempfile.NamedTemporaryFile("r", suffix=".jsonl") as record:
        words = [*(["nice", "-n", str(nice)] if nice else []), *suite.command(), *more]
        environment = {**os.environ, "CHECK_RECORD": record.name, "CHECK_BUILD": built}
        with subprocess.Popen(
            words, cwd=ROOT, env=environment, stdin=subprocess.DEVNULL, stdout=subprocess.PIPE,
            stderr=subprocess.STDOUT, text=True, errors="replace",
        ) as ran:
            RUNNING.add(ran)
            said = ran.communicate()[0]
        RUNNING.discard(ran)
        outcome = outcome_of(name, said, ran.returncode)
        outcome.cases = [json.loads(line) for line in record]
    outcome.seconds = time.monotonic() - begun
    return outcome


Job = tuple[int, Callable[[], Outcome]]


class Pool:
    """Runs jobs side by side, those that take longest first. Each has its seconds. Jobs and threads can be added while
    others run."""

    def __init__(self, workers: int) -> None:
        self.workers, self.threads, self.added = workers, 0, 0
        self.waiting: list[tuple[int, int, Callable[[], Outcome]]] = []
        self.ended: SimpleQueue[Outcome | BaseException] = SimpleQueue()
        self.lock = threading.Lock()

    def add(self, jobs: Iterable[Job]) -> None:
        """Adds jobs, which begin as soon as a thread is free."""
        with self.lock:
            for seconds, job in jobs:
                heapq.heappush(self.waiting, (-seconds, self.added, job))
                self.added += 1
        self.grow(self.workers)

    def grow(self, workers: int) -> None:
        """Has this many jobs run side by side."""
        with self.lock:
            self.workers = max(self.workers, workers)
            new = min(self.workers - self.threads, len(self.waiting))
            self.threads += max(new, 0)
        for _ in range(new):
            threading.Thread(target=self.work, daemon=True).start()

    def work(self) -> None:
        """Runs jobs until none is left."""
        while True:
            with self.lock:
                if not self.waiting:
                    self.threads -= 1
                    return
                job = heapq.heappop(self.waiting)[2]
            try:
                self.ended.put(job())
            except BaseException as error:  # (it is raised where the outcomes are taken)
                self.ended.put(error)

    def outcomes(self) -> Iterator[Outcome]:
        """The outcomes of all jobs, as they end."""
        told = 0
        while told < self.added:
            ended = self.ended.get()
            if isinstance(ended, BaseException):
                raise ended
            told += 1
            yield ended

    def __enter__(self) -> Pool:
        return self

    def __exit__(self, kind: type[BaseException] | None, *_: object) -> None:
        if kind is not None:  # (an interrupt, for example)
            with self.lock:
                self.waiting.clear()
            for process in list(RUNNING):
                process.terminate()


def run_all(jobs: list[Job], workers: int) -> Iterator[Outcome]:
    """The outcomes of jobs that run side by side, as they end."""
    with Pool(workers) as pool:
        pool.add(jobs)
        yield from pool.outcomes()
