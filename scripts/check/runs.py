"""A check's runs of suites: their outcomes, which are counted and told, and the programs on which they run."""
from __future__ import annotations

import subprocess
import sys
import threading
import time
from collections.abc import Callable, Iterator
from functools import partial
from pathlib import Path

from build.program import PROVED
from build.sources import ROOT
from check import junit, suites
from check.record import Record
from check.suites import Job, Outcome, Suite

# How much less of the processors a suite gets beside the proof than it.
BEHIND = 5
PROOFS = "proofs"


def say(words: str) -> None:
    """Prints a line at once."""
    print(words, flush=True)


class Reports:
    """What is written of a check that has begun: JUnit's XML and a record, each to a file, if it is named."""

    def __init__(self, junit_file: str, record_file: str) -> None:
        self.junit, self.file = junit_file and Path(junit_file).resolve(), record_file and Path(record_file).resolve()
        self.record = Record() if record_file else None

    def write(self, outcomes: list[Outcome]) -> None:
        """Writes them."""
        if self.junit:
            junit.write(outcomes, self.junit)
        if self.record and self.file:
            self.record.write(outcomes, self.file)


class Runs:
    """Runs of suites, and what came of them. `only` is the word of the cases that run, which may be empty."""

    def __init__(self, scratch: Path, only: str, reports: Reports) -> None:
        self.scratch, self.only, self.reports = scratch, only, reports
        self.outcomes: list[Outcome] = []
        self.built: dict[str, str] = {}
        self.proof_ended = threading.Event()
        self.proof_ended.set()

    # ---- outcomes

    def take(self, outcome: Outcome, shown: bool = True) -> None:
        """Counts an outcome, and shows what it said."""
        self.outcomes.append(outcome)
        if shown:
            print(outcome.said, end="")
        say(f"-- {outcome.name}: {outcome.counts()}, {outcome.seconds:.0f} s")

    def failed(self) -> int:
        return sum(outcome.failed for outcome in self.outcomes)

    def end(self) -> int:
        """Tells the counts; the exit status."""
        self.reports.write(self.outcomes)
        whole = Outcome("")
        for outcome in self.outcomes:
            whole.passed += outcome.passed
            whole.failed += outcome.failed
            whole.skipped += outcome.skipped
        say(whole.counts())
        return 0 if whole.passed and not whole.failed else 1

    # ---- jobs

    def job(self, suite: Suite, name: str, *words: str | Path) -> Job:
        """A run of a suite with more words."""
        more = [*map(str, words), *(["--only", self.only] if self.only else [])]

        def run() -> Outcome:
            ahead = 0 if self.proof_ended.is_set() else BEHIND
            return suites.run(name, suite, more, max(ahead, 5 * suite.nice), self.built.get(suite.name, ""))

        return suite.seconds, run

    def jobs_on(self, kind: str, program: Path | None, chosen: list[Suite]) -> Iterator[Job]:
        """The runs of suites on a built program."""
        for suite in chosen:
            name = suite.name if kind == "proved" else f"{suite.name} on {kind}"
            if program is None:
                yield 0, partial(Outcome, name, failed=1, said=f"{name}: there is no such program\n")
            else:
                yield self.job(suite, name, program)

    def run(self, jobs: list[Job], workers: int) -> None:
        """Runs jobs side by side, this many at once."""
        for outcome in suites.run_all(jobs, workers):
            self.take(outcome)

    # ---- programs

    def quick(self) -> Path | None:
        """A quick program without a name; None, and a failure, where it isn't made."""
        program, begun = self.scratch / "tsp", time.monotonic()
        words = ["nice", "-n", "10", str(ROOT / "build"), "--quick", str(program)]
        ran = subprocess.run(words, stdin=subprocess.DEVNULL, stdout=subprocess.PIPE, stderr=subprocess.STDOUT, text=True, check=False)
        if ran.returncode == 75:
            made = suites.skipped("quick", "a toolchain that gives a program without a proof")
        else:
            made = Outcome("quick", int(not ran.returncode), int(bool(ran.returncode)), said=ran.stdout)
        made.seconds = time.monotonic() - begun
        self.take(made)
        return None if ran.returncode else program

    def current(self) -> Path:
        """The program that ./tsp runs, which is made where it isn't there."""
        ran = subprocess.run([ROOT / "build", "--quick"], stdin=subprocess.DEVNULL, stdout=subprocess.PIPE, text=True, check=False)
        if ran.returncode:
            say("0 passed, 1 failed")
            sys.exit(1)
        program = Path(ran.stdout.strip())
        proved = "proved by an earlier run" if program == PROVED else "the quick one, which isn't proved"
        say(f"check: nothing is proved here; the program is {proved}: {program.relative_to(ROOT)}")
        return program


class Beside:
    """Runs something in a thread while the body runs, and waits for it."""

    def __init__(self, work: Callable[[], None]) -> None:
        self.thread = threading.Thread(target=work)

    def __enter__(self) -> None:
        self.thread.start()

    def __exit__(self, *_: object) -> None:
        self.thread.join()


def listed(all_suites: list[Suite]) -> None:
    """Prints the suites."""
    say(f"{'suite':<12} {'seconds':>7}  what it runs, and what it needs")
    for suite in all_suites:
        needs = sorted(set(suite.needs.values())) + ["the proof"] * suite.proof
        told = f"  ({', '.join(needs)})" if needs else ""
        say(f"{suite.name:<12} {suite.seconds:>7}  {' '.join(suite.command())}{told}")
    say(f"{PROOFS:<12} {2300:>7}  rt ci  (the toolchain)")
