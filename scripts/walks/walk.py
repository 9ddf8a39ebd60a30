"""The walks of the data through the crates. `scripts/walk --help` says what a walk has, and which of its functions are rows."""
from __future__ import annotations

import heapq
import tomllib
from collections import Counter
from collections.abc import Iterator
from dataclasses import dataclass, field
from functools import cached_property
from pathlib import Path
from typing import Any

from code_text import Function
from crates_text import ROOT

from .body import Body, Choices
from .world import World

Table = dict[str, Any]  # as choices.toml has it
TABLE = ROOT / "scripts/walks/choices.toml"
LONG, SHORT = 20, 3


class Unknown(Exception):
    """What is wrong with choices.toml."""


@dataclass
class Row:
    """A function that is shown, with those below it."""

    function: Function
    below: list[Row] = field(default_factory=list)


class Walk:
    """A walk by its choices."""

    def __init__(self, world: World, table: Table, own: Table) -> None:
        self.world, self.name, self.title = world, own["name"], own["title"]
        self.takes: Choices = {enum: set(variants) for enum, variants in {**table["takes"], **own.get("takes", {})}.items()}
        self.leaves = {*table["leaves"], *own.get("leaves", [])} - {*own.get("enters", [])}
        self.aside = set(table["aside"])
        self.begin = self.beginning(own.get("begin", table["begin"]))
        self.is_refused = own.get("refused", False)
        self.unknown: Counter[str] = Counter()

    def beginning(self, name: str) -> Function:
        found = [function for (_, free), functions in self.world.free.items() if free == name for function in functions]
        begins = [function for function in found if function.path.stem == "main" or function.is_for_c]
        if not begins:
            raise Unknown(f"no program or call from C begins with {name}")
        return begins[0]

    def enters(self, function: Function) -> bool:
        """Whether the walk goes into a function."""
        if function is self.begin:
            return True
        is_left = function.crate in self.aside or {function.name, function.shown} & self.leaves
        return not (is_left or function.body is None or function.is_law or function.changes_nothing)

    def targets(self, function: Function, made: set[str]) -> list[Function]:
        """The functions that a call may mean: of a trait's method, those of the types that are made on the walk."""
        if not function.is_asked:
            return [function]
        own = [it for it in self.world.methods[function.name] if it.trait == function.owner and not it.is_asked
               and (it.owner in made or len(it.owner) == 1)]
        return own or [function]

    @cached_property
    def calls(self) -> dict[Function, list[Function]]:
        """Each function of the walk with those that it calls, in their order. Types that are made open more of it, so it is walked
        until none is new."""
        made: set[str] = set()
        while True:
            before, found, self.unknown = len(made), {}, Counter()
            waiting = [self.begin]
            while waiting:
                function = waiting.pop()
                if function in found:
                    continue
                body = Body(self.world, function, self.takes, self.is_refused)
                made |= body.made
                self.unknown.update(body.unknown)
                targets = [it for called in body.calls for it in self.targets(called, made) if self.enters(it)]
                found[function] = list(dict.fromkeys(targets))
                waiting += reversed(found[function])
            if len(made) == before:
                return found

    @cached_property
    def nearest(self) -> dict[Function, list[Function]]:
        """Each function with those that stand below it: those to which it is the shortest way, by changes of file first."""
        callers: dict[Function, Function] = {}
        costs, heap, count = {self.begin: 0}, [(0, 0, self.begin)], 0
        ended: set[Function] = set()
        while heap:
            cost, _, function = heapq.heappop(heap)
            if function in ended:
                continue
            ended.add(function)
            for called in self.calls[function]:
                way = cost + (10 if called.path != function.path else 1)
                if called not in ended and way < costs.get(called, way + 1):
                    count += 1
                    costs[called], callers[called] = way, function
                    heapq.heappush(heap, (way, count, called))
        return {function: [it for it in called if callers.get(it) == function] for function, called in self.calls.items()}

    @cached_property
    def rows(self) -> list[Row]:
        """The rows, folded."""
        self.shown: Counter[Path] = Counter()
        rows, _ = self.rows_from(self.begin, None)
        return self.passed_on(rows)

    def rows_from(self, function: Function, caller: Function | None) -> tuple[list[Row], int]:
        """The rows of a function and those below it, and how many lines are folded into the row above."""
        is_own = caller is not None and caller.path == function.path
        is_first = not self.shown[function.path]
        self.shown[function.path] += not is_own
        below: list[Row] = []
        lines = (function.body or "").count("\n")
        for called in self.nearest[function]:
            rows, more = self.rows_from(called, function)
            below += rows
            lines += more
        if is_own:
            return below, lines
        if is_first or below or lines >= LONG:
            return [Row(function, below)], 0
        self.shown[function.path] -= 1
        return [], 0

    def passed_on(self, rows: list[Row]) -> list[Row]:
        """Rows without those that only pass on."""
        found = []
        for row in rows:
            row.below = self.passed_on(row.below)
            is_short = (row.function.body or "").strip().count("\n") < SHORT
            if is_short and len(row.below) == 1 and self.shown[row.function.path] > 1:
                self.shown[row.function.path] -= 1
                found += row.below
            else:
                found.append(row)
        return found

    def flat(self, rows: list[Row] | None = None, depth: int = 0) -> Iterator[tuple[int, Function]]:
        """The rows one after the other, each with its depth."""
        for row in self.rows if rows is None else rows:
            yield depth, row.function
            yield from self.flat(row.below, depth + 1)

    def outline(self, depth: int) -> list[Row]:
        """The rows down to this depth, that of the first one being 0."""
        def cut(rows: list[Row], left: int) -> list[Row]:
            return [Row(row.function, cut(row.below, left - 1)) for row in rows] if left >= 0 else []

        return cut(self.rows, depth)

    def figures(self) -> tuple[int, int, int, int, int]:
        """How many functions, files, crates and rows it has, and how often the next row is of another crate."""
        crates = [function.crate for _, function in self.flat()]
        changes = sum(one != other for one, other in zip(crates, crates[1:]))
        return len(self.calls), len({it.path for it in self.calls}), len({it.crate for it in self.calls}), len(crates), changes


def all_walks(world: World, table: Table | None = None) -> list[Walk]:
    """The walks of choices.toml."""
    table = table or tomllib.loads(TABLE.read_text())
    see_names(world, table)
    return [Walk(world, table, own) for own in table["walk"]]


def see_names(world: World, table: Table) -> None:
    """Refuses a table that names what isn't there any more."""
    functions = {name for file in world.files.values() for it in file.functions for name in (it.name, it.shown)}
    parts = [table, *table["walk"]]
    for part in parts:
        for name in (*part.get("leaves", []), *part.get("enters", [])):
            if name not in functions:
                raise Unknown(f"no function is called {name}, which the table leaves or enters")
        for enum, variants in part.get("takes", {}).items():
            found = [item for item in world.items.get(enum, []) if item.kind == "enum"]
            if lost := [variant for variant in variants if not any(variant in item.variants for item in found)]:
                raise Unknown(f"there is no {enum}::{lost[0]}, which the table takes")
    for crate in table["aside"]:
        if crate not in world.crates:
            raise Unknown(f"no crate is called {crate}, which the table leaves aside")
