"""The record of the check that a release carries: docs/check.json, if it is of the release's own commit.

The figures of pages are written from a record, so they are committed after it. Such a commit changes the record and pages
alone, and the record still counts as its own.
"""
from __future__ import annotations

import json
import subprocess
from collections.abc import Iterable

from build.sources import ROOT

FILE = "docs/check.json"


def is_page(path: str) -> bool:
    """Whether a change of this file needs no check of what is built."""
    return path == FILE or path.endswith((".md", ".svg"))


def why_not(record: dict[str, object], changed: Iterable[str] | None) -> str:
    """Why a record isn't one of the commit from which these files differ, or nothing. None: the commits have nothing in common."""
    if record["changed"]:
        return "it is of files that weren't committed"
    if record["failed"]:
        return "something failed in it"
    if not record["proved"] and not record["kept"]:
        return "nothing was proved in it"
    if changed is None:
        return "it is of a commit that isn't here"
    if beyond := [path for path in changed if not is_page(path)]:
        return f"{beyond[0]} has changed since its commit"
    return ""


def fault() -> str:
    """Why there is no record of this commit, or nothing."""
    if not (ROOT / FILE).exists():
        return "there is none"
    record = json.loads((ROOT / FILE).read_text())
    words = ["git", "diff", "--name-only", record["commit"]]
    ran = subprocess.run(words, cwd=ROOT, stdin=subprocess.DEVNULL, capture_output=True, text=True, check=False)
    return why_not(record, None if ran.returncode else ran.stdout.splitlines())
