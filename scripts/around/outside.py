"""What scripts/about prints of a file outside crates/: what it is, which files name it, what you may change, and what to run."""
from __future__ import annotations

import re
import textwrap
import tomllib
from collections import defaultdict
from functools import cached_property
from itertools import takewhile
from pathlib import Path, PurePath
from typing import Any

from crates_text import ROOT
from runner import repository

from .told import WIDTH, few, sentence

TABLE = Path(__file__).with_suffix(".toml")
SUITES = ROOT / "tests/suites.toml"
DOCSTRING = re.compile(r'\A(?:#![^\n]*\n)?"""(.*?)"""', re.S)
REMARKS = re.compile(r"\A(?:#!.*\n)?((?:(?:#|//)(?: .*)?\n)+)")
BLOCK = re.compile(r"\A/\*+(.*?)\*/", re.S)
MOST_BYTES, MOST_ROWS, MOST_NAMES = 1_000_000, 12, 6
PROVED = ("crates.txt", "HANDLES", "crates")


def first_remark(text: str) -> str:
    """The comment that begins a file, in whatever language, as one text."""
    if found := DOCSTRING.match(text) or BLOCK.match(text):
        return " ".join(re.sub(r"^\s*\* ?", "", found[1], flags=re.M).partition("\n\n")[0].split())
    if found := REMARKS.match(text):
        lines = (line.lstrip("#/").strip() for line in found[1].splitlines())
        return " ".join(takewhile(bool, lines))
    return ""


def first_paragraph(page: str) -> str:
    """The first paragraph of a page, without marks."""
    paragraphs = (part.strip() for part in re.sub(r"<!--.*?-->", "", page, flags=re.S).split("\n\n"))
    found = next((part for part in paragraphs if part and not part.startswith("#")), "")
    return re.sub(r"\[([^]]*)\]\([^)]*\)", r"\1", " ".join(found.split()))


class Outside:
    """The files outside crates/, and what names them."""

    def __init__(self, root: Path = ROOT, paths: list[Path] | None = None, places: list[dict[str, Any]] | None = None) -> None:
        self.root = root
        every = [path.relative_to(root) for path in (repository() if paths is None else paths)]
        self.files: list[PurePath] = [path for path in every if path.parts[0] != "crates"]
        listed = tomllib.loads(TABLE.read_text())["place"] if places is None else places
        self.places: dict[str, dict[str, Any]] = {place["path"]: place for place in listed}

    @cached_property
    def texts(self) -> dict[PurePath, str]:
        """The files that are texts, and not large; without the table of places, which names many."""
        found = {}
        for path in (it for it in self.files if self.root / it != TABLE):
            file = self.root / path
            if file.stat().st_size <= MOST_BYTES:
                found[path] = file.read_text(errors="replace")
        return found

    def place(self, path: PurePath) -> dict[str, Any] | None:
        """What is said of the longest path that a file is at or below."""
        ways = [str(path), *map(str, path.parents)]
        found = next((self.places[way] for way in ways if way in self.places), None)
        return self.places[found["like"]] if found and "like" in found else found

    def head(self, path: PurePath) -> str:
        """What a file says of itself, or else its header or the page of its folder does."""
        text = self.texts.get(path, "")
        header = path.with_suffix(".h")
        if path.suffix == ".md":
            return sentence(first_paragraph(text))
        if path.suffix == ".cpp" and header in self.texts:
            return sentence(first_remark(self.texts[header]))
        comment = re.search(r"^COMMENT\s*:\s*(.*)$", text, re.M) if path.suffix != ".py" else None
        return sentence(first_remark(text) or (comment[1] if comment else "")) or self.row_of_page(path)

    def row_of_page(self, path: PurePath) -> str:
        """What a README beside it, or above, says in the row or the item that names it."""
        for folder in path.parents:
            rows = [line for line in self.texts.get(folder / "README.md", "").splitlines() if line.startswith(("| `", "- `"))]
            for line in rows:
                named, _, told = line.strip("|- ").partition("|" if line.startswith("|") else ": ")
                words = re.findall(r"`([^`]+)`", named)
                if any(word.rstrip("/") in (path.name, path.stem, str(path.relative_to(folder))) for word in words):
                    return sentence(re.sub(r"\[([^]]*)\]\([^)]*\)", r"\1", told.strip(" |")))
        return ""

    def is_named(self, path: PurePath) -> list[re.Pattern[str]]:
        """How other files name a file. A name that several files have is named with its folder."""
        is_alone = sum(it.name == path.name for it in self.files) == 1 and "." in path.name
        tail = path.name if is_alone or path.name.isupper() else str(PurePath(*path.parts[-2:])) if len(path.parts) > 1 else f"./{path.name}"
        found = [re.compile(rf"(?<![\w-]){re.escape(tail)}(?![\w-]|\.\w)")]
        if path.suffix == ".py":
            found.append(re.compile(rf"^\s*(?:from|import) (?:\S*\.)?{re.escape(path.stem)}\b|^\s*from (?:\S*\.)?{re.escape(path.parent.name)} "
                                    rf"import .*\b{re.escape(path.stem)}\b", re.M))
        if path.suffix == ".cpp" and path.with_suffix(".h") in self.texts:
            found.append(re.compile(rf'#include "(?:\S*/)?{re.escape(path.parent.name)}/{re.escape(path.stem)}\.h"'))
        return found

    def users(self, path: PurePath) -> dict[str, list[str]]:
        """The files that name or import a file, by their folders. One of its own folder may leave out the folder."""
        near = re.compile(rf"""["'`(/ ]{re.escape(path.name)}(?![\w-]|\.\w)""") if "." in path.name and path.name != "README.md" else None
        patterns, found = self.is_named(path), defaultdict(list)
        is_common = path.suffix == ".py" and sum(it.name == path.name for it in self.files) > 1
        for other, text in self.texts.items():
            is_near = other.parent == path.parent
            used = patterns[:1] if is_common and not is_near and path.parent.name not in text else patterns
            if other != path and (any(pattern.search(text) for pattern in used) or near and is_near and near.search(text)):
                found[str(other.parent) if len(other.parts) > 1 else "the top"].append(other.name)
        return found

    def suites(self, path: PurePath) -> list[str]:
        """The suites of ./check that run a test."""
        table = tomllib.loads(SUITES.read_text()) if SUITES.is_file() else {}
        return [name for name, it in table.items() if str(path) == f"tests/{it['folder']}/{it.get('script', name)}"]

    def lines(self, path: PurePath, has_all: bool = False) -> list[str]:
        """What is said of a file, with some of its users or all."""
        place = self.place(path)
        if place is None:
            raise SystemExit(f"about: {TABLE.relative_to(ROOT)} has no place for {path}")
        count = f"{len(self.texts[path].splitlines())} lines" if path in self.texts else f"{(self.root / path).stat().st_size} bytes"
        outside = "outside crates/, " if path.parts[0] != "crates" else ""
        users = [f"  {folder}: {few(names, 10**6 if has_all else MOST_NAMES)}" for folder, names in self.users(path).items()]
        if (left := len(users) - MOST_ROWS) > 0 and not has_all:
            users[MOST_ROWS:] = [f"  and files in {left} more folders (--all)"]
        kept = "it is" if place["path"] == str(path) else "it belongs to"
        suites = [f"suites of ./check that run it: {', '.join(found)}"] if (found := self.suites(path)) else []
        parts = [("where", [it for it in (self.head(path), f"{kept}: {place['is']}") if it]),
                 ("who uses it", [*suites, *(["files that name it", *users] if users else ["no other file names it"])]),
                 ("what you may change", ["All proofs depend on it." if place["path"] in PROVED else "No proof depends on it.", place["may"]]),
                 ("after a change", place["run"] or ["nothing"])]
        found = [f"{path}: {outside}{count}"]
        for title, told in parts:
            found += ["", title]
            for text in told:
                found += textwrap.wrap(text, WIDTH, initial_indent="  ", subsequent_indent="      ", break_long_words=False, break_on_hyphens=False)
        return found
