"""What the tests written in Python import: the program that they run, and the counts with which each ends."""
from __future__ import annotations

import argparse
import io
import json
import os
import re
import shutil
import subprocess
import sys
import unittest
from collections.abc import Callable, Iterator
from pathlib import Path
from typing import NoReturn

from counts import SKIPPED, Counted, counts_in, skips_in

TESTS = Path(__file__).resolve().parents[1]
ROOT = TESTS.parent
BUILT = ROOT / "crates/tsp_tool/out/tsp_tool"
MADE = {"out", "dist", ".git", "__pycache__", "node_modules"}  # folders of what was built


def repository() -> list[Path]:
    """The files of the repository, without those that were built."""
    ran = subprocess.run(["git", "-C", str(ROOT), "ls-files", "-co", "--exclude-standard"], capture_output=True, text=True, check=False)
    listed = [ROOT / name for name in ran.stdout.splitlines()] if ran.returncode == 0 else ROOT.rglob("*")
    return [file for file in sorted(listed) if file.is_file() and not MADE & set(file.relative_to(ROOT).parts)]


def the_program() -> Path:
    """The program that the first word of the command line names, or the one that was built last."""
    return program_at(sys.argv[1] if len(sys.argv) > 1 else BUILT)


def program_at(path: str | Path) -> Path:
    """The program at a path, whole. Where there is none, the test ends."""
    named = Path(path)
    if not (named.is_file() and os.access(named, os.X_OK)):
        stop(f"there is no program {named}: run ./check or ./tsp first")
    return named.resolve()


def words_given(
    doc: str,
    more: Callable[[argparse.ArgumentParser], object] = lambda _: None,
    needs_program: Callable[[argparse.Namespace], bool] = lambda _: True,
) -> argparse.Namespace:
    """The words of a test whose cases can be picked: `program` and `only`, and what `more` adds."""
    formed = argparse.RawDescriptionHelpFormatter
    parser = argparse.ArgumentParser(usage=argparse.SUPPRESS, description=doc, formatter_class=formed, add_help=False)
    parser.add_argument("--help", action="help", help=argparse.SUPPRESS)
    parser.add_argument("program", nargs="?", default=BUILT, help=argparse.SUPPRESS)
    parser.add_argument("--only", default="", help=argparse.SUPPRESS)
    more(parser)
    given = parser.parse_args()
    if needs_program(given):
        given.program = program_at(given.program)
    return given


def stop(why: str) -> NoReturn:
    """Ends a test that can't begin, as one failure."""
    print(f"{Path(sys.argv[0]).name}: {why}", file=sys.stderr)
    counts = Counts()
    counts.add(False, name=why)
    sys.exit(counts.end())


def counts_of_tap(said: str) -> Counted | None:
    """The counts of tests that wrote them as TAP, as Node does."""
    found = dict(re.findall(r"^# (pass|fail|skipped) (\d+)$", said, re.M))
    return Counted(*(int(found.get(word, 0)) for word in ("pass", "fail", "skipped"))) if "fail" in found else None


def tests_in(suite: unittest.TestSuite) -> Iterator[unittest.TestCase]:
    """The tests of a suite and of those in it."""
    for test in suite:
        if isinstance(test, unittest.TestSuite):
            yield from tests_in(test)
        else:
            yield test


class Counts:
    """How many cases have passed, failed and been skipped. Where the variable CHECK_RECORD names a file, each case is
    written there, a line of JSON each, for the report of ./check."""

    def __init__(self) -> None:
        self.passed = self.failed = self.skipped = 0
        self.cases: list[dict[str, str]] = []

    def add(self, is_well: object, told: str = "", name: str = "") -> None:
        """Counts a case, and tells of one that failed."""
        outcome = "passed" if is_well else "failed"
        self.cases.append({"name": name or str(len(self.cases) + 1), "outcome": outcome, "told": "" if is_well else told})
        if is_well:
            self.passed += 1
        else:
            self.failed += 1
            if told:
                print(told, flush=True)

    def add_all(self, faults: list[str]) -> None:
        """Counts a case that has these faults: as passed where there are none, else each fault."""
        for fault in faults:
            self.add(False, fault)
        if not faults:
            self.add(True)

    def skip(self, what: str, needed: str) -> None:
        """Counts what isn't run, and tells what it needs: the packages to install."""
        self.skipped += 1
        self.cases.append({"name": what, "outcome": "skipped", "told": needed})
        print(f"{SKIPPED}{what}: {needed}", flush=True)

    def has(self, what: str, tools: dict[str, str]) -> bool:
        """Whether these commands are there, each with the package that has it; else what needs them is skipped."""
        lacking = next((package for tool, package in tools.items() if shutil.which(tool) is None), "")
        if lacking:
            self.skip(what, f"apt-get install {lacking}")
        return not lacking

    def run(self, *words: str | Path) -> None:
        """Runs another test, shows what it writes, and adds its counts."""
        ran = subprocess.run(words, stdin=subprocess.DEVNULL, stdout=subprocess.PIPE, stderr=subprocess.STDOUT, text=True, errors="replace",
                             check=False)
        print(ran.stdout, end="", flush=True)
        self.take_counts(str(words[0]), ran.stdout, ran.returncode, "")

    def take_counts(self, what: str, said: str, status: int, told: str) -> Counted | None:
        """Adds the counts of a test that wrote this and ended with this status. One without them has failed."""
        found = counts_in(said)
        if found is None or (status and not found.failed):
            self.add(False, f"{what} ended with status {status}{told}", what)
            return None
        self.passed += found.passed
        self.failed += found.failed
        self.skipped += found.skipped
        return found

    def counted(self, what: str, said: str, status: int) -> None:
        """Adds the counts of a test that wrote this and ended with this status. Its cases are in its own record, and what it
        skipped is told again."""
        found = self.take_counts(what, said, status, f": {said[-2000:]}")
        if found and found.failed:
            print(f"{what}:\n{said}", flush=True)
        elif found:
            print(*skips_in(said), sep="\n", end="\n" * bool(found.skipped), flush=True)

    def unittests(self, folder: Path, words: list[str] | None = None) -> None:
        """Runs the modules test_NAME.py of a folder by unittest, or those with one of these words in their name."""
        loader, suite = unittest.TestLoader(), unittest.TestSuite()
        for path in sorted(folder.glob("test_*.py")):
            if not words or any(word in path.stem for word in words):
                suite.addTests(loader.loadTestsFromName(path.stem))
        names = [test.id() for test in tests_in(suite)]
        result = unittest.TextTestRunner(stream=io.StringIO()).run(suite)
        faults = {test.id(): told for test, told in [*result.failures, *result.errors]}
        for name in dict.fromkeys([*names, *faults]):
            self.add(name not in faults, f"{name}:\n{faults.get(name, '')}", name)

    def end(self) -> int:
        """Prints the last line of a test, 'N passed, M failed', with ', K skipped' where something was; its exit
        status, which is 0 where something ran or was skipped and nothing failed, else 1."""
        if record := os.environ.get("CHECK_RECORD"):
            with open(record, "a", encoding="utf-8") as file:
                file.writelines(json.dumps(case) + "\n" for case in self.cases)
        print(Counted(self.passed, self.failed, self.skipped), flush=True)
        return 0 if self.passed + self.skipped and not self.failed else 1
