"""Who uses what, over all crates: which functions call a function, which files import a file, and which contracts and records rest on a
definition."""
from __future__ import annotations

import re
from collections import defaultdict
from collections.abc import Iterable, Iterator
from functools import cached_property
from pathlib import Path

from circles import MEANINGS, Circles
from code_text import Clause, Code, Function
from crates_text import NAME, Crate, Definitions, Edit, Key, code_at, definitions_at
from walks.body import Body
from walks.walk import Walk, all_walks
from walks.world import World

from .imports import Imports, module_of

WORD = re.compile(NAME)


class AllCalls(Body):
    """A function's body with all its calls, including those after a refusal."""

    def follows(self, pattern: list[str]) -> object:
        return True

    def add(self, function: Function) -> None:
        self.calls.append(function)


class Users:
    """The crates, and who uses what in them."""

    def __init__(self, crates: dict[str, Crate]) -> None:
        self.crates, self.world, self.imports = crates, World(crates), Imports(crates)
        self.files = self.world.files

    @cached_property
    def circles(self) -> Circles:
        return Circles(self.crates.values())

    def crate_of(self, path: Path) -> Crate:
        return next(crate for crate in self.crates.values() if crate.folder in path.parents)

    def above(self, crate: Crate) -> list[str]:
        """The crates that depend on a crate."""
        return [name for name, below in self.world.below.items() if crate.name in below and name != crate.name]

    # ---- code

    @cached_property
    def calls(self) -> dict[Function, list[Function]]:
        """Each function with those that it calls."""
        every = (function for file in self.files.values() for function in file.functions)
        return {it: list(dict.fromkeys(AllCalls(self.world, it, {}).calls)) for it in every if it.body is not None}

    @cached_property
    def called_by(self) -> dict[Function, list[Function]]:
        """Each function with those that call it."""
        found: dict[Function, list[Function]] = defaultdict(list)
        for function, called in self.calls.items():
            for it in called:
                found[it].append(function)
        return found

    def callers(self, function: Function) -> list[Function]:
        """The functions that call a function, or the method of a trait that it is."""
        return [caller for it in (function, *self.asked(function)) for caller in self.called_by.get(it, []) if caller is not function]

    def asked(self, function: Function) -> list[Function]:
        """The method of a trait that a function implements, if it does."""
        return [it for it in self.world.methods[function.name] if it.is_asked and it.owner == function.trait] if function.trait else []

    def home(self, path: str, crate: str) -> tuple[Path, str] | None:
        """The file that declares what a path of code names, such as `crate::a::T` or `tsp_b::T`, and its name there."""
        first, *rest = path.split("::")
        owner = self.crates.get(first) or self.crates[crate]
        parts = rest if first == "crate" or first in self.crates else [first, *rest]
        *modules, name = parts or [""]
        file = owner.folder / "src" / f"{'/'.join(modules) or 'lib'}.rt"
        if file not in self.files:
            return None
        passed = self.files[file].passed_on.get(name)
        return self.home(passed, owner.name) if passed and passed != path else (file, name)

    @cached_property
    def importers(self) -> dict[Path, dict[str, set[Path]]]:
        """For each file of code, the files that import each of its names."""
        found: dict[Path, dict[str, set[Path]]] = defaultdict(lambda: defaultdict(set))
        for file in self.files.values():
            for path in file.uses.values():
                home = self.home(path, file.crate)
                if home and home[0] != file.path and file.place != "lib":
                    found[home[0]][home[1]].add(file.path)
        return found

    def is_exported(self, function: Function) -> bool:
        """Whether other crates can call a function."""
        library = self.crates[function.crate].folder / "src/lib.rt"
        passed = self.files[library].passed_on if library in self.files else {}
        return function.is_public and (function.owner or function.name) in passed

    @cached_property
    def walks(self) -> list[Walk]:
        return all_walks(self.world)

    # ---- definitions

    def importers_of(self, file: Definitions) -> set[Path]:
        """The files that import a file of definitions or lemmas; of a prelude, those that import what it passes on."""
        crate = self.crate_of(file.path)
        module = module_of(crate, file.path)
        if file.path.stem != "Prelude":
            cited = f"crate::proofs::{file.path.stem}::"
            return self.imports.users[module] | {code.path for code in crate.code if file in crate.lemmas and cited in code.text}
        every = [*((it.path, it.uses) for it in (*crate.specs, *crate.lemmas)), *((it.path, it.ghost_uses) for it in crate.code)]
        return {path for path, uses in every if any(source == module for source, _ in uses.values())}

    def names_imported(self, file: Definitions) -> dict[str, set[Path]]:
        """The names of a file of definitions or lemmas that others import, each with these files."""
        module = module_of(self.crate_of(file.path), file.path)
        found: dict[str, set[Path]] = defaultdict(set)
        for path in self.importers_of(file):
            keys = definitions_at(path).uses.values() if path.suffix == ".antt" else code_at(path).ghost_uses.values()
            for key in (it for it in keys if self.imports.home(it) == module):
                found[key[1].partition(" as ")[0]].add(path)
        return found

    def stating(self, file: Code) -> set[Path]:
        """The files of definitions and proofs that name a type of a file of code."""
        prefix = f"{file.crate}.specs.declared.{file.place.replace('/', '.')}."
        return {path for module, paths in self.imports.users.items() if module.startswith(prefix) for path in paths if path.suffix == ".antt"}

    @cached_property
    def named_by(self) -> dict[Key, set[Key]]:
        """Each definition with those that name it."""
        found: dict[Key, set[Key]] = defaultdict(set)
        for source, file in self.circles.modules.items():
            for name in file.definitions:
                for named in set().union(*self.circles.parts_of((source, name)).values()):
                    found[named].add((source, name))
        return found

    def resting_on(self, keys: Iterable[Key]) -> set[Key]:
        """The definitions whose meaning rests on one of these, and these."""
        found: set[Key] = set()
        rest = list(keys)
        while rest:
            key = rest.pop()
            if key not in found:
                found.add(key)
                rest += self.named_by.get(key, ())
        return found

    @cached_property
    def clauses(self) -> list[tuple[Function, Clause, set[Key]]]:
        """The clauses of all contracts, each with the definitions that it names."""
        found = []
        for file in self.files.values():
            homes = {name.rpartition(" as ")[2]: self.circles.home((module, name.partition(" as ")[0]))
                     for name, (module, _) in file.ghost_uses.items()}
            for function in file.functions:
                for clause in function.clauses:
                    found.append((function, clause, {homes[word] for word in WORD.findall(clause.text) if word in homes}))
        return found

    def stated(self, keys: set[Key]) -> Iterator[tuple[Function, Clause]]:
        """The clauses that name one of these definitions."""
        return ((function, clause) for function, clause, named in self.clauses if named & keys)

    def records(self, keys: set[Key]) -> list[tuple[str, list[str]]]:
        """The records of the line `yes` that rest on one of these, each with its fields that do."""
        found = []
        for record in (it for it in self.circles.records if it[1] in MEANINGS and it in keys):
            fields = [field for field, named in self.circles.parts_of(record).items() if field and named & keys]
            found.append((record[1], fields))
        return found

    # ---- proofs and wrong edits

    def proved_by(self, path: Path) -> Function | None:
        """The function whose proof a file is part of. One that calls itself has a `+` before its name."""
        crate = self.crate_of(path)
        folder = str(path.parent.relative_to(crate.folder / "proofs")).replace("+", "")
        return next((it for it in crate.functions if crate.folder_of(it) == folder), None)

    def code_proved_by(self, file: Definitions) -> set[Path]:
        """The files of code whose functions have proofs that import a file of lemmas, or that cite it themselves."""
        paths = self.importers_of(file)
        return {it.path for path in paths if path.suffix == ".antt" and len(path.relative_to(self.crate_of(path).folder).parts) > 2
                if (it := self.proved_by(path))} | {path for path in paths if path.suffix == ".rt"}

    def edits_of(self, crate: Crate, path: Path, folders: Iterable[str] = ()) -> list[Edit]:
        """The wrong edits that change a file, or that a proof in one of these folders refuses."""
        name, wanted = str(path.relative_to(crate.folder)), set(folders)
        return [edit for edit in crate.edits if any(pair.path == name for pair in edit.pairs)
                or edit.refused_by and edit.refused_by[1] in (*wanted, name)]
