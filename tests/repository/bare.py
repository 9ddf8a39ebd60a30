"""Wrong edits without the proofs of the functions that they change: what `tests/repository/edits --bare` tries.

A proof's text also refuses an edit that takes a name or a step from it, whatever the contract says. Without that
text the contract is left, and with it what the prover finds alone. Some goals it doesn't find without an edit either:
they are known once for each function, and say nothing of the edit.
"""
from __future__ import annotations

import re
import subprocess
from collections.abc import Iterator
from contextlib import contextmanager
from functools import cache
from pathlib import Path

from crates_text import Crate, Edit

GOAL = re.compile(r"\s*pub (\S+) : goal\.|note: src/.*\(`([^`]+)`\)|fn .* did not prove `([^`]+)`")


def edited(edit: Edit, folder: Path) -> dict[Path, str | None]:
    """The files that an edit changes in a crate's folder, with their new texts."""
    texts: dict[Path, str | None] = {}
    for pair in edit.pairs:
        text = texts.get(folder / pair.path) or (folder / pair.path).read_text()
        texts[folder / pair.path] = text.replace(pair.old, pair.new)
    return texts


def proofs_of(function: str, crate: Path) -> dict[Path, str | None]:
    """The proofs of a function, to be taken away. The invariants of its loops are left."""
    folder = crate / "proofs" / function
    folders = folder, folder.with_name(f"+{folder.name}")
    return {file: None for folder in folders for file in (folder / "Answers.antt", folder / "Proof.antt")
            if file.is_file()}


@contextmanager
def put(texts: dict[Path, str | None]) -> Iterator[None]:
    """Gives files other texts for a while, or takes them away."""
    were = {file: file.read_text() for file in texts}
    for file, text in texts.items():
        file.unlink() if text is None else file.write_text(text)
    try:
        yield
    finally:
        for file, text in were.items():
            file.write_text(text)


def checked(crate: Path, functions: list[str]) -> list[str]:
    """What the prover says of some functions of a crate, or of all."""
    only = [word for function in functions for word in ("--only", function.replace("/", "::"))]
    ran = subprocess.run(["rt", "check", *only], cwd=crate, stdin=subprocess.DEVNULL, stdout=subprocess.PIPE,
                         stderr=subprocess.STDOUT, text=True, errors="replace", check=False)
    return ran.stdout.splitlines()


def open_goals(lines: list[str], name: str) -> set[str] | None:
    """The goals of a function that the prover leaves open; None where it is proved. Notes are before the function's
    line, help after it."""
    ends = [at for at, line in enumerate(lines) if line.startswith("fn ")]
    own = [at for at in ends if lines[at].startswith(f"fn {name}: ")]
    if not own:
        return set()
    if lines[own[0]].endswith(": proved"):
        return None
    before = max((at for at in ends if at < own[0]), default=-1)
    after = min((at for at in ends if at > own[0]), default=len(lines))
    told = [line for line in lines[before + 1:own[0]] if line.startswith("note: ")] + lines[own[0]:after]
    found = [(next(filter(None, goal.groups())), "goal is false" in line) for line in told if (goal := GOAL.match(line))]
    false = {goal for goal, is_false in found if is_false}
    return {goal for goal, _ in found if goal not in false} | {f"{goal} (false)" for goal in false}


def name_of(function: str, crate: Path) -> str:
    """A function as the prover names it."""
    return f"{crate.name}::{function.replace('/', '::')}"


@cache
def open_anyway(function: str, crate: Path) -> set[str]:
    """The goals of a function that the prover doesn't find without its proofs, and with no edit."""
    with put(proofs_of(function, crate)):
        return open_goals(checked(crate, [function]), name_of(function, crate)) or set()


def told_of(edit: Edit, crate: Crate) -> tuple[bool, str]:
    """Whether a goal is open with an edit and without the proofs of the functions that it changes, and which are."""
    functions, folder = crate.folders_of(edit), crate.folder
    texts = edited(edit, folder)
    for function in functions:
        texts |= proofs_of(function, folder)
    with put(texts):
        lines = checked(folder, functions)
    if not any(line.startswith("fn ") for line in lines):
        return False, f"not tried: {lines[-1] if lines else 'no answer'}"
    told, is_open = [], False
    for function in functions:
        goals = open_goals(lines, name_of(function, folder))
        if goals is not None:
            anyway = goals & open_anyway(function, folder)
            told.append(f"{function}: open: {', '.join(sorted(goals - anyway)) or 'none'}; without the edit too: "
                        f"{', '.join(sorted(anyway)) or 'none'}")
            is_open = is_open or bool(goals)
    return is_open, "; ".join(told) or "STAYS: no contract of these functions sees it"
