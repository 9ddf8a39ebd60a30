"""Tests by Node, for bindings/node/test and bindings/web/test: its own test files, rows of tests/program/tables by a process of
Node, and types by TypeScript's compiler."""
from __future__ import annotations

import base64
import json
import os
import shutil
import subprocess
import tempfile
from collections.abc import Callable, Iterable
from pathlib import Path
from types import SimpleNamespace

from counts import Counted
from rows import Runner
from runner import counts_of_tap


class Program:
    """The program's verbs, by one process of Node that reads a line for each run and answers by one."""

    def __init__(self, script: Path, subject: Path) -> None:
        self.process = subprocess.Popen(["node", script, subject], stdin=subprocess.PIPE, stdout=subprocess.PIPE, text=True)

    def run(self, words: list[object], cwd: object, **_: object) -> SimpleNamespace:
        """A run, as `subprocess.run` would answer it."""
        asked, answered = self.process.stdin, self.process.stdout
        assert asked and answered
        asked.write(json.dumps({"words": [str(word) for word in words[1:]], "folder": str(cwd)}) + "\n")
        asked.flush()
        told = json.loads(answered.readline())
        out, err = (base64.b64decode(told[word]) for word in ("out", "err"))
        return SimpleNamespace(returncode=told["status"], stdout=out, stderr=err)

    def end(self) -> None:
        self.process.communicate()


def rows(script: Path, subject: Path, each: int = 1, without: Iterable[str] = ()) -> Counted:
    """How many rows of the tables pass, fail and are skipped, if every Nth is run."""
    program = Program(script, subject)
    with tempfile.TemporaryDirectory() as scratch:
        runner = Runner("tsp", scratch, run=program.run, without=without, each=each)
        runner.all()
    program.end()
    return Counted(runner.passed, runner.failed, runner.skipped)


def tests(files: Iterable[Path], **variables: str) -> Counted:
    """How many tests of these files pass, fail and are skipped."""
    words: list[str | Path] = ["node", "--test", "--test-reporter=tap", *sorted(files)]
    ran = subprocess.run(words, env={**os.environ, **variables}, capture_output=True, text=True)
    counts = counts_of_tap(ran.stdout)
    if ran.returncode or counts is None:
        print(ran.stdout + ran.stderr)
    return counts or Counted(failed=1)


def compiled(words: Iterable[object], cwd: Path | None = None) -> Counted:
    """Whether TypeScript's compiler finds the types of a program right."""
    ran = subprocess.run(["tsc", "--noEmit", "--strict", "--target", "es2022", *map(str, words)], cwd=cwd)
    return Counted(passed=1) if ran.returncode == 0 else Counted(failed=1)


def if_there(command: str, package: str, of: str, test: Callable[[], Counted]) -> Counted:
    """What a test counts if its command is installed; else it is skipped, with what to install."""
    if shutil.which(command):
        return test()
    print(f"skipped: {of}: apt-get install {package}")
    return Counted(skipped=1)


def ended(*counts: Counted) -> int:
    """Prints the sums, and gives the exit status."""
    whole = Counted(*map(sum, zip(*counts)))
    print(whole)
    return 0 if whole.passed and not whole.failed else 1
