"""The functions and types of all crates, by which a call is resolved, and the reading of a type as it is written."""
from __future__ import annotations

import re
import sys
from collections import defaultdict
from collections.abc import Iterable
from functools import cached_property
from pathlib import Path

sys.path.append(str(Path(__file__).resolve().parents[2] / "tests/support"))

from code_text import Code, Function, Item, end_of, parts_of, without_parameters  # noqa: E402
from crates_text import Crate  # noqa: E402

# Types that hold others. The last one is what is gone through one by one.
WRAPPERS = ("Option", "Result", "Vec", "Box", "BTreeSet", "BinaryHeap", "VecDeque", "Iter")


def plain(type_: str) -> str:
    """A type without references and lifetimes before it."""
    return re.sub(r"^(?:&|'\w+ |mut |dyn |impl |\s)+", "", type_).strip()


def head_of(type_: str) -> str:
    """The name of a type without its parameters."""
    return without_parameters(plain(type_)) if type_ else ""


def arguments_of(type_: str) -> list[str]:
    """The parameters of a type, without lifetimes; the parts of a tuple; what is in a slice."""
    type_ = plain(type_)
    start = re.search(r"[<(\[]", type_)
    if not start:
        return []
    inside = type_[start.end() : end_of(type_, start.start()) - 1]
    parts = parts_of(inside.split(";")[0] if start[0] == "[" else inside)
    return [part for part in parts if not part.startswith("'")]


def inner_of(type_: str) -> str:
    """What is in an Option, a list, a slice; the type itself of others."""
    type_ = plain(type_)
    if type_.startswith("[") or head_of(type_) in WRAPPERS:
        return (arguments_of(type_) or [""])[0]
    return type_ if not type_.startswith("(") else ""


def replaced(type_: str, by: dict[str, str]) -> str:
    """A type with its parameters replaced."""
    return re.sub(r"\b[A-Z]\w*\b", lambda name: by.get(name[0], name[0]), type_) if by else type_


class World:
    """All functions and types, by their names."""

    def __init__(self, crates: dict[str, Crate]) -> None:
        self.crates = crates
        self.files: dict[Path, Code] = {file.path: file for crate in crates.values() for file in crate.code}
        self.items: dict[str, list[Item]] = defaultdict(list)
        self.free: dict[tuple[str, str], list[Function]] = defaultdict(list)
        self.methods: dict[str, list[Function]] = defaultdict(list)
        self.traits_of: dict[str, set[str]] = defaultdict(set)
        for file in self.files.values():
            for item in file.items:
                self.items[item.name].append(item)
            for function in file.functions:
                if function.owner:
                    self.methods[function.name].append(function)
                else:
                    self.free[function.crate, function.name].append(function)
            for impl in file.impls:
                if impl.trait:  # (a trait that has a type's name is another)
                    self.traits_of[impl.owner].add(impl.trait)

    @cached_property
    def below(self) -> dict[str, set[str]]:
        """Each crate with all that it depends on."""
        found: dict[str, set[str]] = {}
        for name, crate in self.crates.items():
            found[name] = {name}.union(*(found.get(it, set()) for it in crate.needs))
        return found

    def item(self, name: str, crate: str, kinds: Iterable[str] = ("struct", "enum", "type")) -> Item | None:
        """The type with a name that a crate can see; its own first."""
        found = [it for it in self.items.get(name, []) if it.kind in kinds and it.crate in self.below.get(crate, ())]
        return next((it for it in found if it.crate == crate), found[0] if found else None)

    def function(self, path: str, crate: str, file: Path | None = None) -> Function | None:
        """The free function at a path as `crate::a::f` or `tsp_b::f`, through re-exports."""
        first, _, _ = path.partition("::")
        name = path.rpartition("::")[2]
        crate = crate if first in ("crate", "super", "self") or "::" not in path else first
        found = self.free.get((crate, name), [])
        if own := [it for it in found if it.path == file]:
            return own[0]
        module = path.split("::")[-2] if path.count("::") > 1 else ""
        if found:
            return next((it for it in found if it.path.stem == module), found[0])
        library = self.crates[crate].code if crate in self.crates else []
        passed = next((file.passed_on[name] for file in library if file.place == "lib" and name in file.passed_on), "")
        return self.function(passed, crate) if passed and passed != path else None

    def methods_of(self, owner: str, name: str, crate: str) -> list[Function]:
        """The methods with a name of a type, or those that its traits give it."""
        can_see = [it for it in self.methods.get(name, []) if it.crate in self.below.get(crate, ()) and it.body is not None]
        own = [it for it in can_see if it.owner == owner and not it.is_asked]
        return own or [it for it in can_see if it.is_asked and it.owner in self.traits_of[owner]]
