"""What the comments that begin files say of other files, held against these. For tests/repository/cited.

A head may name a file by its name or by the end of its path.
"""
from __future__ import annotations

import re
from functools import cache
from pathlib import Path

from crates_text import Crate

FILE = re.compile(r"\w[\w/]*\.(?:rt|antt)\b")
NAME_IN_FILE = re.compile(rf"`([\w:]+)` in `?({FILE.pattern})")


def lost(crate: Crate, head: str, crates: dict[str, Crate]) -> list[str]:
    """What a head names and isn't there: a file that is neither in its crate nor in one that the head names, too; a name in a
    file."""
    owners = [crate, *(crates[name] for name in re.findall(r"\w+", head) if name in crates)]
    paths = [path for owner in owners for path in files_of(owner.folder)]
    named = {word: [path for path in paths if str(path).endswith(f"/{word}")] for word in FILE.findall(head)}
    found = [f"there is no {word}" for word, files in named.items() if not files]
    return found + [f"{name} isn't in {word}" for name, word in NAME_IN_FILE.findall(head)
                    if named[word] and not any(name.rpartition("::")[2] in words_of(path) for path in named[word])]


@cache
def files_of(folder: Path) -> list[Path]:
    """The code, definitions and proofs of a crate."""
    return [*folder.rglob("*.rt"), *folder.rglob("*.antt")]


@cache
def words_of(path: Path) -> frozenset[str]:
    """The words of a file."""
    return frozenset(re.findall(r"\w+", path.read_text()))
