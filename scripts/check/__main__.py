"""Runs the tests of this repository.

usage: ./check [--without-proof] [--junit FILE] [--record FILE]
       ./check NAME.. [--only WORD] [--junit FILE] [--record FILE]
       ./check --list

Without names it runs all suites in tests/suites.toml. First come the suites on the repository's files, which take
seconds. Then `rt ci` proves every crate, checks that each wrong edit in must-fail/ is refused, and runs the unit tests.
Meanwhile the quick program is built. The tests of the built programs and of the libraries begin once these are proved:
two at a time during the wrong edits, if processors are idle, and the rest in parallel afterwards.

  --without-proof  leave out the proof: the suites run on the program that ./tsp runs
  NAME..           run only these suites, on that program; `proofs` is `rt ci`
  --only WORD      run only the cases and rows that contain this word (suites cases and tables)
  --list           print the suites, how long each takes, and what it needs
  --junit FILE     also write the outcomes as JUnit XML
  --record FILE    write a record of the run as JSON: commit, toolchain, machine, counts, checksums of what was built
  --help           print this

The last line is 'N passed, M failed', with ', K skipped' if a tool was missing. For each skipped test a line begins with
'skipped:' and says what to install. The exit status is 0 if nothing failed, 4 if the arguments are refused, and
otherwise 1.
"""
from __future__ import annotations

import os
import shutil
import signal
import subprocess
import sys
import tempfile
import time
from functools import partial
from pathlib import Path
from typing import NoReturn

sys.dont_write_bytecode = True
sys.path[0] = str(Path(__file__).resolve().parents[1])
try:
    from check import proofs, suites
except ModuleNotFoundError as error:
    sys.exit(f"check: this needs Python 3.11 or later ({error})")
from build import statements
from build.program import PROVED
from build.sources import LIBRARY, PROGRAM, ROOT
from check.machine import free_memory
from check.runs import BEHIND, PROOFS, Beside, Reports, Runs, listed, say
from check.suites import FIRST, Job, Outcome, Pool, Suite

REFUSED = 4
BUILT_FOR = {"proved": PROVED, "by-rattle": PROVED.with_name(f"{PROVED.name}.by-rattle")}
# Beside the proof: how many suites run at once, and how much memory has to be free before the library is made, which takes most.
BESIDE, MEMORY = 2, 8 << 30
# That comes before any suite: the seconds by which it is ordered.
MAKING = 1000
OTHER = ROOT / "bindings/systems/build"


class Words:
    """The words of the command line."""

    def __init__(self, words: list[str]) -> None:
        self.names: list[str] = []
        self.without_proof = self.lists = self.helps = False
        self.only = self.junit = self.record = ""
        words = list(words)
        while words:
            word, _, value = words.pop(0).partition("=")
            if word in ("--only", "--junit", "--record"):
                if not value and not words:
                    refuse(f"{word} needs a value")
                setattr(self, word[2:], value or words.pop(0))
            elif word in ("--help", "-h"):
                self.helps = True
            elif word == "--list":
                self.lists = True
            elif word == "--without-proof":
                self.without_proof = True
            elif word.startswith("-"):
                refuse(f"unknown option: {word}")
            else:
                self.names.append(word)

    def see(self, known: list[str]) -> None:
        """Refuses words that don't go together, and names that no suite has."""
        for name in self.names:
            if name not in known:
                refuse(f"no suite is called {name}: ./check --list has their names")
        if self.only and not set(self.names) & {"cases", "tables"}:
            refuse("--only is for ./check cases, ./check tables, or both")


def refuse(why: str) -> NoReturn:
    """Ends with the status of words that are refused."""
    print(f"check: {why}", file=sys.stderr)
    sys.exit(REFUSED)


class Check(Runs):
    """A check: its suites, and when each runs."""

    def __init__(self, words: Words, all_suites: list[Suite], scratch: Path) -> None:
        super().__init__(scratch, words.only, Reports(words.junit, words.record))
        self.words, self.suites = words, all_suites
        self.proves = not words.without_proof and not words.names
        self.workers = len(os.sched_getaffinity(0))
        self.pool = Pool(BESIDE)
        self.begun: set[str] = set()
        self.proved: set[str] = set()
        self.making: set[str] = set()
        if not self.proves:  # (for suites that do without what the proof leaves)
            os.environ["CHECK_WITHOUT_PROOF"] = "1"

    def all(self) -> None:
        """Every suite."""
        first = [suite for suite in self.suites if suite.folder == FIRST]
        self.run([self.job(suite, suite.name) for suite in first], self.workers)
        if self.failed():
            return
        if not self.proves:
            self.some([suite for suite in self.suites if suite not in first])
            return
        quick: list[Outcome] = []
        self.proof_ended.clear()
        with self.pool:
            with Beside(lambda: self.on_quick(quick)):
                try:
                    self.take(proofs.prove(say, self.beside_proof), shown=False)
                finally:
                    self.proof_ended.set()
            self.after_proof(quick)

    def on_quick(self, outcomes: list[Outcome]) -> None:
        """Builds the quick program and runs its suites on it, beside the proof."""
        program = self.quick()
        chosen = [suite for suite in self.suites if "quick" in suite.on]
        if program:
            outcomes += suites.run_all(list(self.jobs_on("quick", program, chosen)), 1)

    def beside_proof(self, crate: str, sources: str) -> None:
        """Begins what needs no more than this crate and those that are proved so far. The sources are those proved."""
        if not self.proved:  # (`rt ci` has seen by now how much memory is free)
            ahead = [suite for suite in self.suites if suite.ahead and not suite.lacks()]
            self.pool.add([(suite.seconds, partial(self.build, suite)) for suite in ahead])
        self.proved.add(crate)
        if crate == PROGRAM and PROVED.exists():
            self.begin([suite for suite in self.suites if not (suite.quiet or suite.made or suite.proof)])
        for name, needed in ((LIBRARY, set(statements.libraries([LIBRARY]))), (PROGRAM, {PROGRAM, LIBRARY})):
            if crate in needed and needed <= self.proved:
                self.making.add(name)
                self.pool.add([(MAKING, partial(self.make, name, sources))])

    def build(self, suite: Suite) -> Outcome:
        """Has a suite build what needs no proof. It goes on there later, so nothing is told of that."""
        begun, folder = time.monotonic(), str(self.scratch / suite.name)
        words = ["nice", "-n", str(BEHIND), *suite.command(), "--build", folder]
        subprocess.run(words, cwd=ROOT, stdin=subprocess.DEVNULL, stdout=subprocess.DEVNULL, stderr=subprocess.DEVNULL, check=False)
        self.built[suite.name] = folder
        return Outcome(f"{suite.name}, built", seconds=time.monotonic() - begun)

    def make(self, name: str, sources: str) -> Outcome:
        """Has ./release make the archive of the library, or the object of the program too, and begins what needs it."""
        begun = time.monotonic()
        while free_memory() < MEMORY and not self.proof_ended.wait(5):
            pass
        if not statements.mark_proved(sources):
            say("check: the sources have changed while they were proved")
        nice: list[str | Path] = [] if self.proof_ended.is_set() else ["nice", "-n", str(BEHIND)]
        words = ["--library", str(self.scratch / name)] if name == LIBRARY else ["--modules"]
        subprocess.run([*nice, ROOT / "release", *words], stdin=subprocess.DEVNULL, stdout=subprocess.DEVNULL, check=False)
        self.begin([suite for suite in self.suites if suite.made == name])
        if name == LIBRARY and OTHER.exists() and not self.proof_ended.is_set():
            self.compile_ahead()
        return Outcome(f"{name}, made", seconds=time.monotonic() - begun)

    def compile_ahead(self) -> None:
        """Has the library compiled for aarch64, whose suite waits for the program. The object is kept beside the module."""
        asked = subprocess.run([ROOT / "release", "--kept"], stdin=subprocess.DEVNULL, capture_output=True, text=True, check=False)
        if kept := asked.stdout.strip():
            module = Path(kept).with_name(statements.MODULES[LIBRARY])
            words: list[str | Path] = ["nice", "-n", str(BEHIND), OTHER, "linux-aarch64", self.scratch / "linux-aarch64", "--library", module]
            subprocess.run(words, stdin=subprocess.DEVNULL, capture_output=True, check=False)

    def begin(self, chosen: list[Suite]) -> None:
        """Adds the runs of suites to those that wait, but for suites that have begun."""
        chosen = [suite for suite in chosen if suite.name not in self.begun and suite.folder != FIRST]
        self.begun |= {suite.name for suite in chosen}
        jobs: list[Job] = [self.job(suite, suite.name) for suite in chosen if not suite.on]
        for kind, program in BUILT_FOR.items():
            if kind == "proved" or program.exists():
                of_kind = [suite for suite in chosen if kind in suite.on]
                jobs += self.jobs_on(kind, program if program.exists() else None, of_kind)
        self.pool.add(jobs)

    def after_proof(self, quick: list[Outcome]) -> None:
        """The suites that are left, and what came of all."""
        for outcome in quick:
            self.take(outcome)
        if not PROVED.exists():  # (this says why)
            subprocess.run(["rt", "run"], cwd=PROVED.parent.parent, stdin=subprocess.DEVNULL, check=False)
        self.begin([suite for suite in self.suites if suite.made not in self.making])
        self.pool.grow(self.workers)
        for outcome in self.pool.outcomes():
            self.take(outcome)

    def some(self, chosen: list[Suite]) -> None:
        """These suites, without the proof."""
        named = bool(self.words.names)
        jobs = [self.job(suite, suite.name) for suite in chosen if not suite.on and (named or not suite.proof)]
        if on := [suite for suite in chosen if suite.on]:
            jobs += self.jobs_on("proved", self.current(), on)
        self.run(jobs, self.workers)
        if not named:
            for suite in chosen:
                if suite.proof:
                    self.take(suites.skipped(suite.name, "the proof, which ./check repeats"))
            self.take(suites.skipped(PROOFS, "./check without --without-proof"))

    def named(self) -> None:
        """The suites that were named."""
        names = self.words.names
        self.some([suite for suite in self.suites if suite.name in names])
        if PROOFS in names:
            self.take(proofs.prove(say), shown=False)


def main() -> int:
    signal.signal(signal.SIGTERM, lambda *_: sys.exit(1))
    signal.signal(signal.SIGHUP, lambda *_: sys.exit(1))
    words, all_suites = Words(sys.argv[1:]), suites.manifest()
    words.see([*(suite.name for suite in all_suites), PROOFS])
    if words.helps or words.lists:
        signal.signal(signal.SIGPIPE, signal.SIG_DFL)
        say(__doc__.strip()) if words.helps else listed(all_suites)
        return 0
    if shutil.which("rt") is None:
        say("check: there is no command rt of the toolchain, which builds and proves: README.md, Build from source")
        return 1
    os.chdir(ROOT)
    with tempfile.TemporaryDirectory(prefix="tsp-check-") as scratch:
        check = Check(words, all_suites, Path(scratch))
        check.named() if words.names else check.all()
        return check.end()


if __name__ == "__main__":
    sys.exit(main())
