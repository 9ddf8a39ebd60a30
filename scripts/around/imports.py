"""Which files import each file of definitions or lemmas, directly or through a prelude that passes its names on."""
from __future__ import annotations

from collections import defaultdict
from collections.abc import Iterator
from functools import cached_property
from pathlib import Path

from crates_text import Crate, Key


def without_alias(name: str) -> str:
    return name.partition(" as ")[0].strip()


def module_of(crate: Crate, path: Path) -> str:
    """The module of a file of definitions, as `use` lines write it."""
    return ".".join(path.relative_to(crate.folder.parent).with_suffix("").parts)


class Imports:
    """The imports of all crates."""

    def __init__(self, crates: dict[str, Crate]) -> None:
        self.crates = crates
        files = ((crate, file) for crate in crates.values() for file in (*crate.specs, *crate.lemmas))
        self.modules = {module_of(crate, file.path): file for crate, file in files}
        self.passed_on = {module: {without_alias(name): source for source, name in file.passed_on.values()}
                          for module, file in self.modules.items() if file.passed_on}

    def home(self, key: Key) -> str:
        """The module that defines a name, through those that pass it on."""
        source, name = key[0], without_alias(key[1])
        while passed := self.passed_on.get(source, {}).get(name):
            source = passed
        return source

    def each(self) -> Iterator[tuple[Path, str]]:
        """Each file with a module that it imports. What a prelude passes on isn't its own import."""
        for crate in self.crates.values():
            for file in (*crate.specs, *crate.lemmas):
                own = [key for name, key in file.uses.items() if name not in file.passed_on]
                yield from ((file.path, source) for source in [*map(self.home, own), *file.aliases.values()])
            for code in crate.code:
                yield from ((code.path, self.home(key)) for key in code.ghost_uses.values())

    @cached_property
    def users(self) -> dict[str, set[Path]]:
        """The files that import each module."""
        found: dict[str, set[Path]] = defaultdict(set)
        for path, module in self.each():
            found[module].add(path)
        return found
