"""The texts of the crates, read in one way: code (by code_text.py), definitions and lemmas (.antt), wrong edits (.edit).

Suites of tests/repository, scripts/walk and scripts/about stand on it; tests/repository/texts tests it.
"""
from __future__ import annotations

import re
from collections.abc import Iterator
from dataclasses import dataclass
from functools import cache, cached_property
from itertools import takewhile
from pathlib import Path

from code_text import Code, Function, Impl, Item, own_parameters

ROOT = Path(__file__).resolve().parents[2]

# ---- definitions and lemmas

DEFINITION = re.compile(r"^(?:(?:abbrev|unfoldable) )*(?P<public>pub )?(?:(?P<sort>record|data) )?(?!pub |mod |use )(?P<name>[^\s:]+)(?= |$)")
BEGINS = re.compile(r"(?:abbrev|pub|record|data|unfoldable) |[^\s:(){}]+ :(?: |$)")
IMPORT = re.compile(r"^(?:unfoldable )?(pub )?use (\S+?)(?:\.\{([^}]*)\})?(?: as (\S+))?$")
NAME = r"[^\W\d]\w*(?:-\w+)*"
Key = tuple[str, str]  # a module as `use` lines write it, and a name in it


@dataclass(frozen=True)
class Definition:
    """A definition: its lines from `first` on, with the comment directly above it, which isn't the file's."""

    name: str
    sort: str
    is_public: bool
    number: int  # of its first line of code
    first: int
    lines: tuple[str, ...]

    @cached_property
    def code(self) -> list[str]:
        """Its lines without comments."""
        return [line for line in self.lines if not line.startswith("--")]

    @cached_property
    def type(self) -> str:
        """Its type, from its first line on."""
        head, *rest = self.code
        more = takewhile(lambda line: line.startswith("    "), rest)
        first = DEFINITION.sub("", head).strip().removeprefix(":").strip()
        return " ".join([first, *(line.strip() for line in more)]).removesuffix(" where")


class Definitions:
    """A file of definitions or of lemmas."""

    def __init__(self, path: Path) -> None:
        self.path, self.text = path, path.read_text()
        self.lines = self.text.splitlines()
        self.uses: dict[str, Key] = {}
        self.aliases: dict[str, str] = {}
        self.passed_on: dict[str, Key] = {}
        self.modules_passed_on: dict[str, str] = {}
        for number, line in enumerate(self.lines, 1):
            if line.startswith(("use ", "pub use ", "unfoldable pub use ")):
                self.take_import(line, f"{path}:{number}")

    def take_import(self, line: str, where: str) -> None:
        found = IMPORT.match(line)
        if not found:
            raise SystemExit(f"{where}: this use line is not understood")
        public, source, names, alias = found.groups()
        source = source.removeprefix("Rattle.")
        for name in re.split(r",\s*", names) if names else []:
            self.uses[name] = (source, name)
            if public:
                self.passed_on[name] = (source, name)
        if names is None:
            self.aliases[alias or source.rpartition(".")[2]] = source
            if public:
                self.modules_passed_on[source.rpartition(".")[2]] = source

    @property
    def head(self) -> str:
        """The comment that begins the file, as one text."""
        return " ".join(line[3:].strip() for line in takewhile(lambda line: line.startswith("-- "), self.lines))

    @cached_property
    def definitions(self) -> dict[str, Definition]:
        """The definitions, or the lemmas, by their names."""
        starts = [place for place, line in enumerate(self.lines) if BEGINS.match(line) and DEFINITION.match(line)]
        return {it.name: it for it in map(self.read, starts, [*starts[1:], len(self.lines)])}

    def read(self, start: int, end: int) -> Definition:
        while end > start + 1 and (not self.lines[end - 1].strip() or self.lines[end - 1].startswith("--")):
            end -= 1
        first = start
        while first > 0 and self.lines[first - 1].startswith("--") and not self.lines[first - 1].startswith("-- ----"):
            first -= 1
        if first == 0 or first == 1 and not self.lines[0].startswith("use"):
            first = start  # (the comment that begins a file is the file's)
        found = DEFINITION.match(self.lines[start])
        assert found
        return Definition(found["name"], found["sort"] or "", bool(found["public"]), start + 1, first, tuple(self.lines[first:end]))

    @cached_property
    def makers(self) -> dict[str, str]:
        """The constructors, each with its data type."""
        return {maker[1]: it.name for it in self.definitions.values() if it.sort == "data"
                for line in it.code if (maker := re.match(rf"  ({NAME}) :", line))}


    @cached_property
    def names(self) -> set[str]:
        """What it declares: definitions or lemmas with their fields, and its own name."""
        fields = (re.match(rf"  (?:pub )?({NAME}) :", line) for it in self.definitions.values() for line in it.code)
        return {self.path.stem, *self.definitions, *(field[1] for field in fields if field)}


# ---- wrong edits


@dataclass(frozen=True)
class Pair:
    """A text that appears once in a file of a crate, and the one that an edit puts in its place."""

    path: str
    old: str
    new: str


@dataclass(frozen=True)
class Edit:
    """A wrong edit: what it says that it breaks, what refuses it, and its pairs, which apply one after the other."""

    path: Path

    @cached_property
    def text(self) -> str:
        return self.path.read_text()

    @property
    def crate(self) -> Path:
        """The folder of its crate."""
        return self.path.parent.parent

    @property
    def is_tried(self) -> bool:
        """Whether the check tries it."""
        return self.path.parent.name == "must-fail"

    @property
    def breaks(self) -> str:
        """What its sentence names first in `code`."""
        told = re.search(r"\Abreaks: .*?`(\w+)`.*\.$", self.text, re.M)
        return told[1] if told else ""

    @property
    def refused(self) -> str:
        """Its line on what refuses it, without the words `refused by`."""
        told = re.search(r"^refused by:(.*)", self.text, re.M)
        return told[1].strip() if told else ""

    @property
    def refused_by(self) -> tuple[str, str] | None:
        """The clause that refuses it, and the function or the file that has it."""
        told = re.fullmatch(r"(.+) \((\S+)\)", self.refused)
        return (told[1], told[2]) if told else None

    @cached_property
    def pairs(self) -> list[Pair]:
        pairs, path, old = [], "", ""
        for line in self.text.splitlines():
            word, _, rest = line.partition(": ")
            if word == "file":
                path = rest.strip()
            elif word == "old":
                old = rest
            elif line.startswith("new:"):
                pairs.append(Pair(path, old, rest))
                old = ""
        return pairs


# ---- crates


class Crate:
    """A crate: its files, and the crates of the repository that crates.txt names for it."""

    def __init__(self, folder: Path, needs: list[str]) -> None:
        self.folder, self.name, self.needs = folder, folder.name, needs

    @cached_property
    def code(self) -> list[Code]:
        return [code_at(path) for path in sorted((self.folder / "src").rglob("*.rt"))]

    @property
    def functions(self) -> Iterator[Function]:
        return (function for file in self.code for function in file.functions)

    @property
    def items(self) -> Iterator[Item]:
        return (item for file in self.code for item in file.items)

    @cached_property
    def specs(self) -> list[Definitions]:
        return [definitions_at(path) for path in sorted((self.folder / "specs").rglob("*.antt"))]

    @cached_property
    def lemmas(self) -> list[Definitions]:
        return [definitions_at(path) for path in sorted((self.folder / "proofs").rglob("*.antt"))]

    @cached_property
    def public_lemmas(self) -> set[str]:
        """The files of lemmas that the crates above may import."""
        path = self.folder / "proofs/Lib.antt"
        lines = path.read_text().splitlines() if path.exists() else []
        return {line.removeprefix("pub mod ") for line in lines if line.startswith("pub mod ")}

    @cached_property
    def names(self) -> set[str]:
        """What it declares in code, definitions and lemmas, and the names of its files."""
        of_code = {name for file in self.code for name in file.names}
        return of_code | {name for file in (*self.specs, *self.lemmas) for name in file.names}

    def folder_of(self, function: Function) -> str:
        """The folder below proofs/ where the proof of a function is: the place of its file, its type with the trait, its name. Methods of
        a type are at the place of the type's file, wherever they are. The prover names a function so, too."""
        impl, place = function.impl, code_at(function.path).place
        if impl.owner and not impl.trait and not impl.is_trait:
            homes = (item.path for item in self.items if item.name == impl.owner and item.kind in ("struct", "enum"))
            place = next((code_at(path).place for path in homes), place)
        module = re.sub(r"(^|/)(lib|main)$", "", place)
        return "/".join(filter(None, (module, named_impl(impl), function.name)))

    def folders_of(self, edit: Edit) -> list[str]:
        """The folders of the functions that an edit changes."""
        found = (self.function_of(pair) for pair in edit.pairs)
        return list(dict.fromkeys(self.folder_of(function) for function in found if function))

    def function_of(self, pair: Pair) -> Function | None:
        """The function that a pair of an edit changes."""
        if not pair.path.startswith("src/") or not (self.folder / pair.path).is_file():
            return None
        code = code_at(self.folder / pair.path)
        place = code.text.find(pair.old)
        return code.function_at(place + len(pair.old)) if place >= 0 else None

    @property
    def edits(self) -> list[Edit]:
        return [Edit(path) for kind in ("must-fail", "wrong-edits") for path in sorted((self.folder / kind).glob("*.edit"))]


def named_impl(impl: Impl) -> str:
    """An impl as the prover names it: `I64Sum` for `Sum` of `i64`, `AnyGives` where any type has it, `FaultFromError` for
    `From<Error>` of `Fault`, and `Points+PlanePoint` for the methods of `Points<PlanePoint>` alone. What a trait asks for is
    named by the trait."""
    if not impl.owner or impl.is_trait:
        return impl.owner
    owner = "Any" if impl.owner in impl.bounds else impl.owner[0].upper() + impl.owner[1:]
    special = "".join(f"+{name}" for name in own_parameters(impl.self_type, impl.bounds))
    if not impl.trait:
        return owner + special
    # (a type's own `Drop` is one of its methods)
    trait = "" if impl.trait == "Drop" else impl.trait + "".join(own_parameters(impl.trait_type, impl.bounds))
    return owner + special + trait


@cache
def code_at(path: Path) -> Code:
    """A file of code, which is read once."""
    return Code(path)


@cache
def definitions_at(path: Path) -> Definitions:
    """A file of definitions or lemmas, which is read once."""
    return Definitions(path)


def crates(root: Path = ROOT) -> dict[str, Crate]:
    """The crates of crates.txt, each after those that it depends on."""
    lines = [line.partition(":") for line in (root / "crates.txt").read_text().splitlines() if line.strip()]
    names = [head.split()[0] for head, _, _ in lines]
    return {name: Crate(root / "crates" / name, [it for it in needs.split() if it in names])
            for name, (_, _, needs) in zip(names, lines)}
