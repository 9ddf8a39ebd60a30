"""The definitions on which the meaning of the line `yes` depends, by circle. For tests/repository/trust and scripts/circles.

The meaning of the line `yes` is six records over files and the printed report (MEANINGS). Four more relate them to bytes: `SaysYes`
and `SaysBound` of a run over readers, `IsAcceptedText` and `IsBoundText` for C, over texts (READINGS). A definition is reached if a
record's field names it, or if a reached definition names it. Names are resolved by the `use` lines of a file, through `pub use` too.
Bound variables and names of fields are not references.

The rule of the circles: CIRCLES gives each field of the ten records a circle.
1. The mathematics: the fields on tours, plans, lengths and bounds of them.
2. The bytes: the fields on which file a text parses to, and on the printed report.
3. The certificate: the fields on how the certificate gave the bound.
One field is divided: what `printed` says of a length (the names of MEASURES) counts in circle 1. The types of a record's own
parameters count in circle 2. A definition belongs to the first circle whose fields reach it. A file is listed in each circle that has
a definition of it. Its lines in a circle are those of these definitions, with the comments directly above them. The six records count
in circle 1, the four in circle 2. Types that the Rust code declares (`specs.declared`) are counted apart, and so are names of the
toolchain's library. Neither is followed. Those of the library that circle 1 names are circle 0.
"""
from __future__ import annotations

import re
from collections import defaultdict
from collections.abc import Iterable
from functools import cached_property
from pathlib import Path

from crates_text import NAME, Crate, Definition, Definitions, Key

MEANINGS = ("IsAcceptedTour", "AreAcceptedRoutes", "IsTourWithBound", "AreRoutesWithBound", "IsAcceptedBound", "IsShownUnsolvable")
READINGS = ("SaysYes", "SaysBound", "IsAcceptedText", "IsBoundText")
CIRCLES: dict[str, dict[int, str]] = {
    "IsAcceptedTour": {1: "problem tour only_tour", 2: "printed"},
    "AreAcceptedRoutes": {1: "problem routes least only_routes", 2: "printed"},
    "IsTourWithBound": {1: "problem tour only_tour bound below_tours optimal",
                           2: "printed",
                           3: "certificate_type of_certificate"},
    "AreRoutesWithBound": {1: "problem routes least only_routes filled bound below_plans optimal",
                           2: "printed",
                           3: "certificate_type of_certificate"},
    "IsAcceptedBound": {1: "below", 2: "printed", 3: "certificate_type of_certificate"},
    "IsShownUnsolvable": {1: "none", 2: "printed", 3: "certificate_type"},
    "SaysYes": {1: "meaning", 2: "instance solution certificate report read written all_judged"},
    "SaysBound": {1: "meaning", 2: "instance certificate report first_file second_file written all_judged"},
    "IsAcceptedText": {1: "meaning", 2: "instance solution certificate spelled all_judged"},
    "IsBoundText": {1: "meaning", 2: "instance certificate found first_file second_file all_judged"},
}
# What `printed` says of a length is mathematics: these names in it count in circle 1.
MEASURES = {"length_of", "plan_length"}
LIBRARY = ("std.", "clap.", "denote.")
TOKEN = re.compile(rf'"(?:[^"\\]|\\.)*"|{NAME}(?:\.(?:{NAME}|\d+))*|[0-9]+|[(){{}}\[\],;:.]|[^\s\w(){{}}\[\],;:."]+[ℤ]?')
CONSTRUCTORS = {"true", "false", "zero", "suc", "pos", "negsuc"}
MODIFIED = re.compile(r"^(?:(?:abbrev|unfoldable) )*(?:pub )?(?:record |data )?\S+")


class Circles:
    """The definitions of all crates, and those of each circle."""

    def __init__(self, crates: Iterable[Crate]) -> None:
        self.modules: dict[str, Definitions] = {}
        for crate in crates:
            for file in crate.specs:
                self.modules[".".join(file.path.relative_to(crate.folder.parent).with_suffix("").parts)] = file
        self.came: dict[Key, Key] = {}  # from where each was reached first
        self.records = [self.record(name) for name in (*MEANINGS, *READINGS)]

    def record(self, name: str) -> Key:
        """The one record with a name."""
        found = [(source, name) for source, file in self.modules.items() if name in file.definitions]
        if len(found) != 1:
            raise SystemExit(f"{len(found)} definitions are called {name}, a record of the line yes")
        return found[0]

    # ---- names

    def home(self, key: Key) -> Key:
        """Where a name is defined, through re-exports of names and of whole modules."""
        source, name = key
        for _ in range(9):
            if ".specs.declared." in source:
                source = source.split(".TheVariants")[0]
                return source, source.rpartition(".")[2]
            if source not in self.modules:
                crate, _, last = source.rpartition(".")
                passing = self.modules.get(f"{crate}.Lib")
                if not passing or last not in passing.modules_passed_on:
                    break
                source = passing.modules_passed_on[last]
                continue
            file = self.modules[source]
            if name in file.definitions or name in file.makers:
                return source, file.makers.get(name, name)
            if name not in file.passed_on:
                break
            source, name = file.passed_on[name]
        return source, name

    def resolve(self, source: str, word: str) -> Key | None:
        """The meaning of a word in a module, if it isn't a variable, a field or a word of the language."""
        file = self.modules[source]
        head, _, rest = word.partition(".")
        if rest and head in file.aliases:
            return self.home((file.aliases[head], rest.split(".")[0]))
        for name in (head, "if◌then◌else◌" if head == "if" else f"◌{head}◌"):
            if name in file.definitions or name in file.makers:
                return source, file.makers.get(name, name)
            if name in file.uses:
                return self.home(file.uses[name])
        return None

    def bound_in(self, source: str, name: str, clause: str) -> set[str]:
        """The variables that a clause binds: of λ, of groups with a type, and of the left side of an equation."""
        groups = re.findall(rf"λ((?:\s*{NAME})+)\s*\.", clause) + re.findall(rf"[({{]((?:{NAME}\s+)*{NAME}) : ", clause)
        bound = {variable for group in groups for variable in group.split()}
        left = re.split(r" = |\s=$", clause)[0]
        if left != clause and not clause.startswith(("pub ", "abbrev ", "unfoldable ", " ")):
            makers = CONSTRUCTORS | set(self.modules[source].makers)
            for word in re.findall(rf"(?<![\w.]){NAME}(?![\w.])", left)[1 if left.startswith(name) else 0 :]:
                if self.resolve(source, word) is None or word[0].islower() and word not in makers:
                    bound.add(word)
        return bound

    def named_in(self, source: str, name: str, clause: str, bound: set[str]) -> set[Key]:
        """What a clause names."""
        # (the left sides in `record { field = value; .. }` are names of fields)
        words = TOKEN.findall(re.sub(rf"([{{;]\s*){NAME} =", r"\1 =", clause))
        free = [word for word in words if not word.startswith('"') and word.split(".")[0] not in bound]
        return {key for word in free if (key := self.resolve(source, word)) and key != (source, name)}

    def parts_of(self, key: Key) -> dict[str, set[Key]]:
        """What each field of a record names, by the field; of other definitions all under ''. A record's head is ''."""
        source, name = key
        definition = self.definition(key)
        clauses = clauses_of(definition)
        fields = [re.match(rf"  pub ({NAME}) :", clause) if definition.sort == "record" else None for clause in clauses]
        shared = self.bound_in(source, name, clauses[0]) | {field[1] for field in fields if field} if definition.sort == "record" else set()
        named: dict[str, set[Key]] = defaultdict(set)
        for clause, field in zip(clauses, fields):
            body = MODIFIED.sub("", clause) if clause is clauses[0] else clause
            body = re.sub(rf"^  {NAME} :", "", body) if definition.sort == "data" else body
            named[field[1] if field else ""] |= self.named_in(source, name, body, shared | self.bound_in(source, name, clause))
        return named

    def definition(self, key: Key) -> Definition:
        return self.modules[key[0]].definitions[key[1]]

    def is_here(self, key: Key) -> bool:
        """Whether it is a definition of the crates."""
        return key[0] in self.modules and key[1] in self.modules[key[0]].definitions

    # ---- circles

    def spread(self, start: set[Key]) -> set[Key]:
        """All that is reached from these."""
        seen: set[Key] = set()
        rest = sorted(start)
        while rest:
            key = rest.pop(0)
            if key in seen or key in self.records:
                continue
            seen.add(key)
            for named in self.parts_of(key).values() if self.is_here(key) else ():
                for other in sorted(named):
                    self.came.setdefault(other, key)
                    rest.append(other)
        return seen

    @cached_property
    def reached(self) -> list[set[Key]]:
        """The three circles, each without those before it."""
        starts: list[set[Key]] = [set(self.records), set(), set()]
        for record in self.records:
            named = self.parts_of(record)
            table = {field: circle for circle, fields in CIRCLES[record[1]].items() for field in fields.split()}
            if differ := set(filter(None, named)) ^ set(table):
                raise SystemExit(f"{record[1]}: CIRCLES of tests/support/circles.py lacks or has too much: {sorted(differ)}")
            for field, circle in table.items():
                for key in named[field]:
                    starts[0 if key[1] in MEASURES else circle - 1].add(key)
                    self.came.setdefault(key, record)
            starts[1] |= named[""]
        reached, before = [], set(self.records)
        for start, own in zip(starts, (MEANINGS, READINGS, ())):
            found = self.spread(start)
            reached.append((found - before) | {record for record in self.records if record[1] in own})
            before |= found
        return reached

    @cached_property
    def lines(self) -> list[dict[Path, int]]:
        """The files of each circle, each with the lines of its definitions there."""
        found: list[dict[Path, int]] = [defaultdict(int), defaultdict(int), defaultdict(int)]
        for keys, lines in zip(self.reached, found):
            for key in filter(self.is_here, keys):
                lines[self.modules[key[0]].path] += len(self.definition(key).lines)
        return found

    def files(self, circle: int) -> dict[Path, int]:
        """The files of a circle, each with the lines of its definitions there."""
        return self.lines[circle - 1]

    def of_file(self, path: Path) -> list[int]:
        """The circles that a file is in."""
        return [circle for circle in (1, 2, 3) if path in self.files(circle)]

    def declared(self, circle: int) -> list[str]:
        """The types of the Rust code in a circle."""
        return sorted({source for source, _ in self.reached[circle - 1] if source.startswith("tsp_") and ".specs.declared." in source})

    def library(self, circle: int) -> list[Key]:
        """The names of the toolchain's library in a circle."""
        return sorted(key for key in self.reached[circle - 1] if key[0].startswith(LIBRARY))

    def unresolved(self, circle: int) -> list[Key]:
        """What is named, and found nowhere."""
        return sorted(key for key in self.reached[circle - 1]
                      if not self.is_here(key) and ".declared." not in key[0] and not key[0].startswith(LIBRARY))

    def total(self, circle: int) -> tuple[int, int, int]:
        """How many files, lines and Rust types a circle has."""
        files = self.files(circle)
        return len(files), sum(files.values()), len(self.declared(circle))

    def why(self, name: str) -> list[str]:
        """A chain of definitions from a record to a name."""
        self.reached  # (which says how each was reached)
        key = next((key for key in self.came if key[1] == name), None)
        links: list[str] = []
        while key and len(links) < 50:
            links.append(".".join(key))
            key = self.came.get(key)
        return links[::-1]


def clauses_of(definition: Definition) -> list[str]:
    """A definition's type or head, and each of its equations or fields, as one text each."""
    parts: list[str] = []
    for line in (re.sub(r"(^|\s)--( .*)?$", "", line) for line in definition.lines):
        if not line.strip():
            continue
        is_field = definition.sort in ("record", "data") and re.match(r"  \S", line)
        if not line.startswith(" ") or is_field or not parts:
            parts.append(line)
        else:
            parts[-1] += f" {line.strip()}"
    return parts


# ---- the first line of a file

FIRST = re.compile(r"\A-- Circles? [123](?:(?:, | and )[123])* of docs/trust\.md\.\n")


def first_line(circles: list[int]) -> str:
    """The line with which a file of definitions of these circles begins; none where it is in no circle."""
    if not circles:
        return ""
    *most, last = map(str, circles)
    return f"-- Circle{'s' * bool(most)} {', '.join(most)}{' and ' * bool(most)}{last} of docs/trust.md."


def with_first_line(text: str, circles: list[int]) -> str:
    """The text of a file that begins with its circles, and with no others."""
    line, rest = first_line(circles), FIRST.sub("", text)
    return f"{line}\n{rest}" if line else rest
