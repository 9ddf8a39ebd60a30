#!/usr/bin/env python3
"""Repeats a check without the program `tsp`: recheck.py F T [--potentials P | --branches B]

The script reads an instance of TYPE TSP, ATSP or CVRP, a tour or routes, and a certificate, and prints the report
that `tsp check` prints. Status 0 means `yes`, 1 `no`, and 2 that a file can't be read here. It needs only
Python 3.9, and computes in whole numbers. With numpy, trees of cases take a tenth of the time, if all numbers
fit into 64 bits. It follows docs/format.md, which defines the numbers, and docs/proof.md, which shows why they
are bounds. It isn't proved, and accepts some files that the program refuses. For a faulty file it names the file
and a line. At a terminal it shows its progress. It is a single file, because it is published along with results
and has to run there without anything else.
"""
from __future__ import annotations

import argparse
import re
import sys
from bisect import bisect
from fractions import Fraction
from functools import cache
from math import isqrt
from operator import add
from pathlib import Path
from typing import Any, Callable, Hashable, Iterable, Iterator, NoReturn, Optional

numpy: Any
try:
    import numpy  # which is quicker, and isn't needed
except ImportError:
    numpy = None

Row = Callable[[int], list[int]]  # the weights from a node to each node; the place 0 isn't used
Case = dict[Hashable, bool]
BILLION = 10**9
DECIDED = 4 * BILLION**2
MOST_KEPT = 5_000_000  # distances
MOST_EXACT = 2**53  # whole numbers below are exact as floats
MOST_NODES = 100_000
MOST_LOADS = 10**7  # nodes times loads of routes
MOST_STATES = 10**7  # of the runs of a leaf
FIRST_ROW = 10_001  # behind the nodes: the index of the first row's multiplier
PLAIN = re.compile("[+-]?[0-9]+")
HALF, MOST_QUICK = DECIDED, 3000  # of numpy: a weight without decisions is less, and tables have so many nodes
# Sections and keywords whose words are whole numbers, but those of points.
READ = {"DIMENSION", "SCALE", "LOAD_UNIT", "TOUR_SECTION", "COMB_SECTION", "BRANCH_SECTION", "FIXED_EDGE_POTENTIAL_SECTION"}
READ |= {"MEMORY_SECTION", "SUBSET_ROW_SECTION"} | {f"{it}_POTENTIAL_SECTION" for it in ("NODE", "ROW", "COLUMN")}


class No(Exception):
    """The first reason for the line `no`."""


class Faulty(ValueError):
    """A file isn't as docs/format.md says: its name, a line, and what is wrong."""

    def __str__(self) -> str:
        return visible(super().__str__())


class Fields(dict[str, list[str]]):
    """The words after each keyword, and those of each section."""

    def __init__(self, path: str) -> None:
        super().__init__({"not judged": []})
        self.path = path
        self.lines: dict[str, list[tuple[int, int]]] = {}  # of each line its first word's place, and its number
        self.numbers: dict[str, list[int]] = {}  # of fields that were read as whole numbers
        self.unknown: list[str] = []  # lines with a keyword that isn't one of the format

    def __missing__(self, name: str) -> NoReturn:
        raise Faulty(f"{self.path}: there is no {name}")

    def add(self, name: str, line: int, words: list[str]) -> None:
        """Adds the words of a line to a field."""
        self.lines.setdefault(name, []).append((len(self.setdefault(name, [])), line))
        self[name].extend(words)

    def faulty(self, name: str, what: str, at: int = 0) -> Faulty:
        """What is wrong with the word at a place of a field."""
        lines = self.lines.get(name, [])
        found = bisect(lines, (at, sys.maxsize)) - 1
        line = f":{lines[found][1]}" if found >= 0 else ""
        return Faulty(f"{self.path}{line}: {name}: {what}")


def visible(text: str) -> str:
    """A text for a terminal: control bytes of a file are shown as `cat -v` shows them, such as `^[`."""
    signs = {sign: f"^{chr(sign ^ 64)}" for sign in (*range(32), 127)}
    return text.translate(signs | {sign + 128: f"M-{shown}" for sign, shown in signs.items() if sign < 32})


def refuse(words: object) -> NoReturn:
    show("")
    print(f"{Path(sys.argv[0]).stem}: {visible(str(words))}", file=sys.stderr)
    sys.exit(2)


def show(words: str) -> None:
    """Shows how far it is, on a terminal."""
    if sys.stderr.isatty():
        print(f"\r{words:40}", end="\r" if not words else "", file=sys.stderr, flush=True)


def fields_of(path: str) -> Fields:
    """The fields of a file."""
    with open(path, encoding="latin-1", newline="\n") as file:
        return fields_in(path, file)


def fields_in(path: str, lines: Iterable[str]) -> Fields:
    """The fields of a file with these lines."""
    fields, section = Fields(path), ""
    for number, line in enumerate(lines, 1):
        line = line.strip(" \t\n\v\f\r")
        match = re.match("([A-Za-z][^ \t\v\f\r:]*)[ \t\v\f\r]*:?(.*)", line, re.S)
        if match is None:
            if line and not section:
                refuse(f"{path}:{number}: a number outside of a section")
            if line:
                fields.add(section, number, re.findall("[^ \t\v\f\r]+", line))
            continue
        keyword, value = match.groups()
        if keyword == "EOF":
            break
        keyword = "FIXED_EDGES_SECTION" if keyword == "FIXED_EDGES" else keyword
        if keyword in fields and (keyword in KNOWN - {"COMMENT"} or keyword.endswith("_SECTION")):
            refuse(f"{path}:{number}: {keyword} comes twice")
        section = keyword if keyword.endswith("_SECTION") else ""
        if not section:
            fields.pop(keyword, None)
            if keyword not in KNOWN:
                fields["not judged"].append(keyword)
                fields.unknown.append(line)
        fields.add(keyword, number, [] if section else value.split())
    return fields


# What a file of each TYPE has to have.
NEEDED: dict[str, list[str]] = {"TSP": ["DIMENSION"], "ATSP": ["DIMENSION"], "CVRP": ["DIMENSION"], "TOUR": ["TOUR_SECTION"]}
NEEDED |= {"POTENTIALS": ["DIMENSION"], "BRANCHES": ["DIMENSION", "BRANCH_SECTION"]}
KNOWN = {"NAME", "COMMENT", "TYPE", "DIMENSION", "CAPACITY", "SCALE", "LOAD_UNIT", "EDGE_WEIGHT_TYPE"}
KNOWN |= {"EDGE_WEIGHT_FORMAT", "NODE_COORD_TYPE", "DISPLAY_DATA_TYPE"}


DISTANCES = {"EUC_2D", "CEIL_2D", "MAN_2D", "MAX_2D", "ATT", "EUC_3D", "MAN_3D", "MAX_3D"}


def whole(word: str) -> int:
    number = Fraction(word)
    if number.denominator != 1:
        raise ValueError(word)
    return int(number)


def wholes(fields: Fields, name: str) -> list[int]:
    """The words of a field as whole numbers."""
    if name not in fields.numbers:
        words = fields.get(name, [])
        plain = all(PLAIN.fullmatch(word) for word in words)
        fields.numbers[name] = list(map(int, words)) if plain else slowly(fields, name, words)
    return fields.numbers[name]


def slowly(fields: Fields, name: str, words: list[str]) -> list[int]:
    """Words as whole numbers, of which some may have a point or a power of ten."""
    numbers: list[int] = []
    for word in words:
        try:
            numbers.append(whole(word))
        except (ValueError, ZeroDivisionError):
            raise fields.faulty(name, f"{word} is no whole number", len(numbers)) from None
    return numbers


def dimension_of(fields: Fields) -> int:
    numbers = wholes(fields, "DIMENSION") if fields["DIMENSION"] else []
    if not numbers:
        raise fields.faulty("DIMENSION", "a number is missing")
    return numbers[0]


def scale_of(file: Fields) -> int:
    scale = (wholes(file, "SCALE") or [1])[0]
    if not 1 <= scale <= 10**6:
        raise file.faulty("SCALE", f"{scale} isn't 1 to 1000000")
    return scale


def capacity_of(instance: Fields) -> int:
    capacity = (wholes(instance, "CAPACITY") or [0])[0]
    if capacity < 1:
        raise instance.faulty("CAPACITY", "a number from 1 on is wanted")
    return capacity


def unit_of(file: Fields) -> int:
    unit = (wholes(file, "LOAD_UNIT") or [1])[0]
    if not 1 <= unit <= 10**12:
        raise file.faulty("LOAD_UNIT", f"{unit} isn't 1 to 1000000000000")
    return unit


def ended(numbers: list[int], group: int) -> list[tuple[int, ...]]:
    """The groups of a list that -1 in the place of a group's first number ends."""
    starts = range(0, len(numbers), group)
    end = next((at for at in starts if numbers[at] == -1), len(numbers))
    return [tuple(numbers[at : at + group]) for at in range(0, end, group)]


def by_node(fields: Fields, name: str, count: int) -> list[int]:
    """A number for each node, from node 1 on; the place 0 isn't used."""
    numbers, words = [0] * (count + 1), wholes(fields, name)
    if sorted(words[0 : 2 * count : 2]) != list(range(1, count + 1)) or len(words) < 2 * count:
        raise fields.faulty(name, f"each node from 1 to {count} is wanted once, with a number")
    for node, number in zip(words[0 : 2 * count : 2], words[1 : 2 * count : 2]):
        numbers[node] = number
    return numbers


def rounded(kind: str, gaps: list[int]) -> int:
    """The distance of points that are so far apart along the axes, in units of 10^-9."""
    if kind.startswith("MAN"):
        return (2 * sum(gaps) + BILLION) // (2 * BILLION)
    if kind.startswith("MAX"):
        return (2 * max(gaps) + BILLION) // (2 * BILLION)
    square, unit = sum(gap * gap for gap in gaps), BILLION**2
    if kind == "ATT":
        unit *= 10
    if kind in ("ATT", "CEIL_2D"):  # the least whole number r with r * r * unit >= square
        whole_squares = -(-square // unit)
        return isqrt(whole_squares - 1) + 1 if whole_squares else 0
    return (isqrt(4 * square // unit) + 1) // 2  # the nearest whole number, a half up


class Costs:
    """The costs between nodes. The rows that were asked for are kept, as far as there aren't too many."""

    def __init__(
        self, count: int, pair: Callable[[int, int], int], row: Row, symmetric: bool, above: Optional[Row] = None
    ) -> None:
        self.count, self.symmetric, self.pair, self.make, self.above = count, symmetric, pair, row, above
        self.kept: dict[int, list[int]] = {}

    def __call__(self, i: int, j: int) -> int:
        return self.pair(i, j)

    def row(self, i: int) -> list[int]:
        """The costs from a node to each node."""
        if i not in self.kept:
            if (len(self.kept) + 1) * self.count > MOST_KEPT:
                self.kept.clear()
            self.kept[i] = self.make(i)
        return self.kept[i]


def costs_of(fields: Fields, count: int) -> Costs:
    """The cost from a node to another."""
    kind = (fields["EDGE_WEIGHT_TYPE"] or ["none"])[0]
    if kind == "EXPLICIT":
        rows = matrix_of(fields, count)
        return Costs(count, lambda i, j: rows[i][j], rows.__getitem__, False)
    if kind not in DISTANCES:
        raise fields.faulty("EDGE_WEIGHT_TYPE", f"{kind} isn't read here")
    points = points_of(fields, kind, count)

    def pair(i: int, j: int) -> int:
        return rounded(kind, [abs(a - b) for a, b in zip(points[i], points[j])])

    def row(i: int) -> list[int]:
        return [rounded(kind, [abs(a - b) for a, b in zip(points[i], point)]) for point in points]

    def above(i: int) -> list[int]:
        """The costs from a node to those with larger numbers."""
        if kind != "EUC_2D":
            return [rounded(kind, [abs(a - b) for a, b in zip(points[i], point)]) for point in points[i + 1:]]
        (x, y), square = points[i], BILLION**2
        return [(isqrt(4 * ((x - a) ** 2 + (y - b) ** 2) // square) + 1) // 2 for a, b in points[i + 1:]]

    return Costs(count, pair, row, True, above)


def matrix_of(fields: Fields, count: int) -> list[list[int]]:
    """The rows of a matrix, from a layout."""
    layout, numbers = (fields["EDGE_WEIGHT_FORMAT"] or ["none"])[0], wholes(fields, "EDGE_WEIGHT_SECTION")
    full, columns, nodes = layout == "FULL_MATRIX", layout.endswith("COL"), range(1, count + 1)
    listed, rows = iter(numbers), [[0] * (count + 1) for _ in range(count + 1)]
    wanted = count * count if full else count * (count + (1 if "DIAG" in layout else -1)) // 2
    if len(numbers) != wanted:
        raise fields.faulty("EDGE_WEIGHT_SECTION", f"{layout} has {wanted} weights, and {len(numbers)} are listed")
    upper = layout.startswith("UPPER") != columns  # a column above the diagonal is read as a row below it
    for i in nodes:
        for j in nodes:
            if full or (i == j and "DIAG" in layout):
                rows[i][j] = next(listed)
            elif i < j if upper else j < i:
                rows[i][j] = rows[j][i] = next(listed)
    return rows


def points_of(fields: Fields, kind: str, count: int) -> list[list[int]]:
    """The coordinates of each node, in counts of 10^-9; the place 0 isn't used."""
    axes, name = 3 if kind.endswith("_3D") else 2, "NODE_COORD_SECTION"
    group = 4 if axes == 3 or fields.get("NODE_COORD_TYPE", [""])[0] == "THREED_COORDS" else 3
    words, points = fields[name], {0: [0] * axes}
    for at in range(0, group * count, group):
        try:
            exact = [Fraction(word) * BILLION for word in words[at + 1 : at + 1 + axes]]
            points[whole(words[at])] = [int(number) for number in exact]
        except (LookupError, ValueError, ZeroDivisionError):
            raise fields.faulty(name, "a node and its coordinates are wanted", at) from None
        if len(exact) != axes or any(number.denominator != 1 for number in exact):
            raise fields.faulty(name, "coordinates have at most nine decimals", at)
    if sorted(points) != list(range(count + 1)):
        raise fields.faulty(name, f"each node from 1 to {count} is wanted once")
    return [points[node] for node in range(count + 1)]


def tours_in(solution: Fields) -> list[list[int]]:
    """The tours of a solution, each behind a -1 or the section's start."""
    tours: list[list[int]] = [[]]
    for node in wholes(solution, "TOUR_SECTION"):
        if node == -1:
            tours.append([])
        else:
            tours[-1].append(node)
    return [tour for tour in tours if tour]


def see_places(nodes: list[int], count: int) -> None:
    """Sees that all are nodes of the instance, each once."""
    for place, node in enumerate(nodes, 1):
        if node > count:
            raise No(f"NodeOutOfRange {place}")
    seen: set[int] = set()
    for place, node in enumerate(nodes, 1):
        if node in seen:
            raise No(f"RepeatedNode {place}")
        seen.add(node)


def uneven(cost: Costs) -> Optional[tuple[int, int]]:
    """The first pair by rows whose two costs differ."""
    nodes = range(1, 1 if cost.symmetric else cost.count + 1)
    return next(((i, j) for i in nodes for j in range(i + 1, cost.count + 1) if cost(i, j) != cost(j, i)), None)


def see_instance(instance: Fields, cost: Costs, count: int) -> None:
    """Sees that no reason is against an instance, but for those against its depot."""
    kind = instance["TYPE"][0]
    if count < (2 if kind == "CVRP" else 3):
        raise No("TooFewNodes")
    if kind == "TSP" and (pair := uneven(cost)):
        raise No(f"NotSymmetric {pair[0]} {pair[1]}")


def see_solution(instance: Fields, solution: Fields, cost: Costs, count: int) -> None:
    """Sees that a solution is one, and has as many nodes as its instance."""
    if solution.get("TYPE", [""])[0] != "TOUR":
        raise No("NotASolution")
    see_instance(instance, cost, count)
    if "DIMENSION" in solution and dimension_of(solution) != count:
        raise No("Dimension")


def tour_of(instance: Fields, solution: Fields, cost: Costs, count: int) -> list[int]:
    """The tour, if no reason is against it."""
    see_solution(instance, solution, cost, count)
    directed = instance["TYPE"][0] == "ATSP"
    tours = tours_in(solution)
    if len(tours) != 1:
        raise No("TourCount")
    tour = tours[0]
    if len(tour) != count:
        raise No("TourLength")
    see_places(tour, count)
    used = set(zip(tour, tour[1:] + tour[:1]))
    for number, (i, j) in enumerate(ended(wholes(instance, "FIXED_EDGES_SECTION"), 2), 1):
        if (i, j) not in used and (directed or (j, i) not in used):
            raise No(f"FixedEdgeUnused {number}")
    return tour


def around(tour: list[int], cost: Costs) -> int:
    """The length of a closed tour."""
    return sum(map(cost, tour, tour[1:] + tour[:1]))


class Quick:
    """Least 1-trees by numpy, where it is installed and all numbers have 64 bits: the weights of a leaf as a table."""

    def __init__(self, scale: int, cost: Costs, count: int) -> None:
        self.largest, self.table = 0, None
        if numpy is None or not 3 <= count <= MOST_QUICK:
            return
        above = cost.above or (lambda i: cost.make(i)[i + 1:])
        half = [[0] * (i + 1) + above(i) for i in range(1, count + 1)]
        self.largest = scale * max(max(map(abs, row)) for row in half)
        if self.largest < HALF:
            table = numpy.array(half, dtype=numpy.int64)
            table[:, 1:] += table[:, 1:].T.copy()
            self.table = scale * table
        shape = (count, count + 1)
        self.weights, self.more = numpy.empty(shape, dtype=numpy.int64), numpy.empty(shape, dtype=numpy.int64)
        self.places: dict[int, Any] = {}

    def inside(self, active: list[tuple[int, set[int]]]) -> Any:
        """What the sets add to the weights of pairs inside of them, twice each number. Floats are exact here."""
        count, width = self.more.shape
        for _, nodes in active:
            if id(nodes) not in self.places:
                places = numpy.fromiter(nodes, dtype=numpy.int64)
                self.places[id(nodes)] = ((places - 1)[:, None] * width + places).ravel()
        pairs = [self.places[id(nodes)] for _, nodes in active]
        more = numpy.repeat([2.0 * number for number, _ in active], [len(places) for places in pairs])
        sums = numpy.bincount(numpy.concatenate(pairs), more, count * width)
        self.more[:] = sums.reshape(count, width)
        return self.more

    def least(self, p: list[int], active: list[tuple[int, set[int]]], changes: list[tuple[int, int, int]]) -> Optional[int]:
        """The least 1-tree under these weights; None where it has to be found without numpy."""
        prices = list(p)
        for number, nodes in active:
            for node in nodes:
                prices[node] -= number
        twice = 2 * sum(number for number, _ in active)
        size = self.largest + 2 * max(map(abs, prices)) + twice
        size += sum(abs(change) for *_, change in changes if abs(change) != DECIDED)
        if self.table is None or size >= HALF or twice >= MOST_EXACT:
            return None
        column = numpy.array(prices, dtype=numpy.int64)
        weights = numpy.add(self.table, column, out=self.weights)
        weights += column[1:, None]
        if active:
            weights += self.inside(active)
        for i, j, change in changes:
            weights[i - 1, j] += change
            weights[j - 1, i] += change
        return self.grown(weights)

    @staticmethod
    def grown(weights: Any) -> int:
        """The least weight of two edges at node 1 and a tree over the others, which grows from node 2."""
        far = numpy.iinfo(numpy.int64).max
        total = sum(map(int, numpy.sort(weights[0, 2:])[:2]))
        inside = numpy.zeros(weights.shape[1], dtype=bool)
        inside[:3] = True
        near = numpy.where(inside, far, weights[1])
        for _ in range(len(weights) - 2):
            node = int(near.argmin())
            total += int(near[node])
            inside[node] = True
            numpy.minimum(near, weights[node - 1], out=near)
            near[inside] = far
        return total


def up(value: int, scale: int) -> int:
    """The least whole number that, times the scale, isn't below a value."""
    return -(-value // scale)


def least_one_tree(count: int, row: Row, stage: str = "") -> int:
    """The least weight of two edges at node 1 and a tree over the others."""
    total = sum(sorted(row(1)[2:])[:2])
    near, outside = row(2), set(range(3, count + 1))
    while outside:
        if len(outside) % 100 == 0:
            show(f"{stage}{len(outside)} nodes are left")
        node = min(outside, key=near.__getitem__)
        outside.remove(node)
        total += near[node]
        near = list(map(min, near, row(node)))
    return total


def bound_by_potentials(instance: Fields, file: Fields, cost: Costs, count: int) -> int:
    """The bound of potentials, or of duals, if no reason is against them."""
    if file.get("TYPE", [""])[0] != "POTENTIALS":
        raise No("NotPotentials")
    if dimension_of(file) != count:
        raise No("PotentialsDimension")
    scale, nodes = scale_of(file), range(1, count + 1)
    directed = instance["TYPE"][0] == "ATSP"
    if ("ROW_POTENTIAL_SECTION" if directed else "NODE_POTENTIAL_SECTION") not in file:
        raise No("PotentialsKind")
    if directed:
        u, v = (by_node(file, f"{it}_POTENTIAL_SECTION", count) for it in ("ROW", "COLUMN"))
        for i in nodes:
            for j in nodes:
                if i != j and u[i] + v[j] > scale * cost(i, j):
                    raise No(f"DualInfeasible {i} {j}")
        return up(sum(u) + sum(v), scale)
    p = by_node(file, "NODE_POTENTIAL_SECTION", count)
    fixed = {frozenset(pair) for pair in ended(wholes(instance, "FIXED_EDGES_SECTION"), 2)}
    triples = ended(wholes(file, "FIXED_EDGE_POTENTIAL_SECTION"), 3)
    pairs = [frozenset(triple[:2]) for triple in triples]
    for number, pair in enumerate(pairs, 1):
        if pair not in fixed:
            raise No(f"MultiplierNotFixed {number}")
    for number, pair in enumerate(pairs, 1):
        if pair in pairs[: number - 1]:
            raise No(f"MultiplierRepeated {number}")
    off = sum(triple[2] for triple in triples)
    changes = [(i, j, -multiplier) for i, j, multiplier in triples]
    tree = least_one_tree(count, weights_of(scale, cost, p, [], changes))
    return up(tree - 2 * sum(p) + off, scale)


def combs_of(numbers: list[int]) -> list[list[list[int]]]:
    """The combs: -1 ends a set, one more the comb, and one where a comb would begin the list."""
    combs: list[list[list[int]]] = []
    sets: list[list[int]] = []
    nodes: list[int] = []
    for number in numbers:
        if number != -1:
            nodes.append(number)
        elif nodes:
            sets, nodes = [*sets, nodes], []
        elif sets:
            combs, sets = [*combs, sets], []
        else:
            break
    return combs


def parts_of(numbers: list[int], group: int) -> list[list[list[int]]]:
    """Groups of as many parts, each ended by -1, until one would begin with -1."""
    groups: list[list[list[int]]] = []
    parts: list[list[int]] = [[]]
    for number in numbers:
        if number != -1:
            parts[-1].append(number)
        elif parts == [[]]:
            break
        elif len(parts) == group:
            groups, parts = [*groups, parts], [[]]
        else:
            parts.append([])
    return groups


def steps_of(file: Fields) -> Iterator[list[int]]:
    """The steps of the tree: a branch's two nodes, or a leaf's 0 and its indices and differences."""
    name = "BRANCH_SECTION"
    words, missing = iter(wholes(file, name)), 1
    try:
        while missing:
            step = [next(words)]
            if step[0] == 0:
                index = next(words)
                while index != -1:
                    step += [index, next(words)]
                    index = next(words)
                missing -= 1
            else:
                step.append(next(words))
                missing += 1
            yield step
    except StopIteration:
        raise file.faulty(name, "the tree isn't complete", max(0, len(file.get(name, [])) - 1)) from None


def is_family(count: int, handle: list[int], *teeth: list[int]) -> bool:
    """Whether the sets are a comb, or a lone set, which leaves a node out."""
    inside = set(handle)
    once = all(len(set(nodes)) == len(nodes) for nodes in (handle, *teeth))
    apart = len(set().union(*teeth)) == sum(len(set(tooth)) for tooth in teeth)
    across = all(inside & set(tooth) and set(tooth) - inside for tooth in teeth)
    if not teeth:
        return once and len(inside) < count
    return once and apart and across and len(teeth) >= 3 and len(teeth) % 2 == 1


@cache
def least_cycle(costs: tuple[tuple[int, ...], ...]) -> int:
    """The least length of a cycle, by the shortest paths from the last one through each set of the others."""
    last = len(costs) - 1
    far = sum(map(sum, costs))
    shortest = [[far] * last for _ in range(1 << last)]  # by the set of those visited, and by the end
    for visited in range(1, 1 << last):
        ends = shortest[visited]
        for end in range(last):
            if visited >> end & 1:
                before = visited ^ 1 << end
                ends[end] = min(map(add, shortest[before], costs[end])) if before else costs[last][end]
    return min(map(add, shortest[-1], costs[last]))


def crossings_of(count: int, sets: list[list[int]]) -> Optional[tuple[int, int]]:
    """How often tours cross the sets at the least, and edges at the most, or None where they are no family."""
    if any(len(set(nodes)) < len(nodes) for nodes in sets):
        return None
    if is_family(count, *sets):
        return 3 * len(sets) - 2 if len(sets) > 1 else 2, 3
    marks = [0] * (count + 1)
    for number, nodes in enumerate(sets):
        for node in nodes:
            marks[node] |= 1 << number
    parts = sorted(set(marks[1:]))
    if len(sets) > 63 or not 2 <= len(parts) <= 14:
        return None
    crossed = tuple(tuple(bin(a ^ b).count("1") for b in parts) for a in parts)
    return least_cycle(crossed), max(map(max, crossed))


def pair_of(directed: bool, i: int, j: int) -> Hashable:
    """A pair of nodes: for an ATSP it has a direction."""
    return (i, j) if directed else frozenset((i, j))


def least_links(count: int, row: Row, case: Case) -> Optional[int]:
    """The least weights of the links from each node that the decisions allow, or None where a node has none."""
    after: dict[int, set[int]] = {}
    before: dict[int, set[int]] = {}
    for arc, used in case.items():
        if used and isinstance(arc, tuple):
            after.setdefault(arc[0], set()).add(arc[1])
            before.setdefault(arc[1], set()).add(arc[0])
    total, nodes = 0, range(1, count + 1)
    for i in nodes:
        allowed = [j for j in nodes if j != i and after.get(i, {j}) == {j} and before.get(j, {i}) == {i}]
        links = row(i)
        weights = [links[j] for j in allowed if case.get((i, j), True)]
        if not weights:
            return None
        total += min(weights)
    return total


def on_branches(file: Fields, count: int, branches: list[list[int]], allowed: range) -> None:
    """Sees that each branch is on nodes, or on families, whose numbers come after those of the nodes: these are for routes."""
    for number, (first, second) in enumerate(branches, 1):
        if first == second or not (1 <= first <= count + 10_000 and 1 <= second <= count):
            raise file.faulty("BRANCH_SECTION", f"branch {number} has to be on two nodes from 1 to {count}")
    for number, (first, _) in enumerate(branches, 1):
        if first not in allowed:
            raise No(f"BadBranch {number}")


def tree_in(file: Fields, count: int) -> tuple[list[list[list[int]]], list[list[int]]]:
    """The families and the steps of a tree of cases."""
    if file.get("TYPE", [""])[0] != "BRANCHES":
        raise No("NotBranches")
    if dimension_of(file) != count:
        raise No("BranchesDimension")
    combs = combs_of(wholes(file, "COMB_SECTION"))
    for number, comb in enumerate(combs, 1):
        if not all(1 <= node <= count for nodes in comb for node in nodes):
            raise file.faulty("COMB_SECTION", f"nodes are 1 to {count}, and those of comb {number} aren't")
    return combs, list(steps_of(file))


def add_step(file: Fields, numbers: list[int], leaf: int, step: list[int]) -> None:
    """Adds the differences of a leaf to the numbers of the leaf before it."""
    for index, difference in zip(step[1::2], step[2::2]):
        if index < 1:
            raise file.faulty("BRANCH_SECTION", f"an index of leaf {leaf} is below 1")
        if index >= len(numbers):
            raise No(f"BadLeaf {leaf}")
        numbers[index] += difference


def tour_bounds(instance: Fields, file: Fields, cost: Costs, count: int) -> Iterator[Optional[int]]:
    """The bounds of the leaves, if no reason is against the tree. A leaf whose decisions no tour keeps has none."""
    combs, steps = tree_in(file, count)
    crossed: list[tuple[int, int]] = []
    for number, comb in enumerate(combs, 1):
        found = crossings_of(count, comb)
        if found is None:
            raise No(f"BadComb {number}")
        crossed.append(found)
    lists, rows = memory_in(file, count)
    if lists or rows:  # which are for routes
        raise No(f"BadMemory {lists[0][0]}" if lists else "BadRow 1")
    directed = instance["TYPE"][0] == "ATSP"
    fixed = ended(wholes(instance, "FIXED_EDGES_SECTION"), 2)
    open_cases: list[Case] = [{pair_of(directed, i, j): True for i, j in fixed}]
    leaves: list[tuple[list[int], Case]] = []
    on_branches(file, count, [step for step in steps if step[0] != 0], range(1, count + 1))
    branches = 0
    for step in steps:
        case = open_cases.pop()
        if step[0] == 0:
            leaves.append((step, case))
            continue
        branches += 1
        pair = pair_of(directed, *step)
        if pair in case:
            raise No(f"BranchTwice {branches}")
        open_cases += [{**case, pair: False}, {**case, pair: True}]
    scale, sets = scale_of(file), [[set(nodes) for nodes in comb] for comb in combs]
    quick = None if directed else Quick(scale, cost, count)
    numbers = [0] * (count + len(combs) + 1)
    for leaf, (step, case) in enumerate(leaves, 1):
        stage = f"leaf {leaf} of {len(leaves)}: "
        show(stage)
        add_step(file, numbers, leaf, step)
        p, m = numbers[: count + 1], numbers[count + 1 :]
        most = sum(number * own for number, (_, own) in zip(m, crossed))
        if max(map(abs, p)) > 10**15 or min(m, default=0) < 0 or most > 9 * 10**17:
            raise No(f"BadLeaf {leaf}")
        active = [(number, nodes) for number, comb in zip(m, sets) if number for nodes in comb]
        back = sum(number * least for number, (least, _) in zip(m, crossed))
        if directed:
            relaxed = least_links(count, weights_of(scale, cost, p, active, []), case)
        else:
            changes = [(*sorted(pair), -DECIDED if used else DECIDED) for pair, used in case.items()]
            tree = None if quick is None else quick.least(p, active, changes)
            if tree is None:
                tree = least_one_tree(count, weights_of(scale, cost, p, active, changes), stage)
            relaxed = tree + DECIDED * sum(case.values())
        yield None if relaxed is None else up(relaxed - 2 * sum(p) + back, scale)


def weights_of(
    scale: int, cost: Costs, p: list[int], active: list[tuple[int, set[int]]], changes: list[tuple[int, int, int]]
) -> Row:
    """The weights of a bound: families make crossings cheaper, and the weights of some pairs are changed.

    A pair crosses each set that one of its nodes is in, but for those that both are in. So each node is
    cheaper by the numbers of its sets, and a pair inside of a set twice as much dearer again.
    """
    prices, sets = list(p), [[] for _ in p]  # type: tuple[list[int], list[list[tuple[int, set[int]]]]]
    for number, nodes in active:
        for node in nodes:
            prices[node] -= number
            sets[node].append((2 * number, nodes))
    more: dict[int, list[tuple[int, int]]] = {}
    for i, j, change in changes:
        more.setdefault(i, []).append((j, change))
        more.setdefault(j, []).append((i, change))

    def row(i: int) -> list[int]:
        own = prices[i]
        weights = [scale * value + own + price for value, price in zip(cost.row(i), prices)]
        for twice, nodes in sets[i]:
            for j in nodes:
                weights[j] += twice
        for j, change in more.get(i, []):
            weights[j] += change
        return weights

    return row


class Fleet:
    """An instance of routes, if no reason is against it: its depot, what each node demands, and the capacity."""

    def __init__(self, instance: Fields, count: int) -> None:
        depots = ended(wholes(instance, "DEPOT_SECTION"), 1)
        if len(depots) != 1:
            raise No("DepotCount")
        self.count, (self.depot,) = count, depots[0]
        self.demands, self.capacity = by_node(instance, "DEMAND_SECTION", count), capacity_of(instance)
        if self.demands[self.depot]:
            raise No("DepotDemand")
        if ended(wholes(instance, "FIXED_EDGES_SECTION"), 2):
            raise No("FixedEdgesInRoutes")
        self.customers = [node for node in range(1, count + 1) if node != self.depot]

    def load(self, nodes: list[int]) -> int:
        return sum(self.demands[node] for node in nodes)

    def need(self, nodes: list[int]) -> int:
        """How many routes at least have one of these customers."""
        return min(max(1, -(-self.load(nodes) // self.capacity)), MOST_NODES)

    def length(self, cost: Costs, routes: list[list[int]]) -> int:
        return sum(cost(i, j) for route in routes for i, j in zip([self.depot, *route], [*route, self.depot]))

    def loads(self, unit: int) -> tuple[list[int], int]:
        """What each customer loads, in whole units, and what a route has room for."""
        whole = [demand // unit for demand in self.demands]
        light = sum(whole[node] == 0 for node in self.customers)
        return [load * (light + 1) or 1 for load in whole], self.capacity // unit * (light + 1) + light

    def least_walk(self, row: Row, loads: list[int], room: int) -> Optional[int]:
        """The least weight of a walk from the depot and back, in which no customer comes again at once, nor right after
        the next one. A table has the rests of walks by the load that is left and by the node that they go on from: the
        least weight, the node that comes next then, and the least weight by another one."""
        rows, table = [row(max(1, node)) for node in range(self.count + 1)], []  # type: list[list[int]], list[Rests]
        for left in range(room + 1):
            rests: Rests = {}
            for node in self.customers:
                if loads[node] > left:
                    continue
                weights, best, other = rows[node], self.depot, None
                least = weights[best]
                for to, (own, after, second) in table[left - loads[node]].items():
                    onward = second if after == node else own
                    if to == node or onward is None:
                        continue
                    weight = weights[to] + onward
                    if weight < least:
                        least, best, other = weight, to, least
                    elif other is None or weight < other:
                        other = weight
                rests[node] = (least, best, other)
            table.append(rests)
        return min((rows[self.depot][node] + rest[0] for node, rest in table[room].items()), default=None)


Rests = dict[int, tuple[int, int, Optional[int]]]


def memory_in(file: Fields, count: int) -> tuple[list[list[int]], list[list[list[int]]]]:
    """Lists of a customer and of those that it remembers, and rows of a set and of the further customers that keep it."""
    lists = [parts[0] for parts in parts_of(wholes(file, "MEMORY_SECTION"), 1)]
    rows = parts_of(wholes(file, "SUBSET_ROW_SECTION"), 2)
    for name, groups in (("MEMORY_SECTION", [lists]), ("SUBSET_ROW_SECTION", rows)):
        if not all(1 <= node <= count for parts in groups for nodes in parts for node in nodes):
            raise file.faulty(name, f"nodes are 1 to {count}")
    return lists, rows


class Memory:
    """What runs remember: customers and rows, by bits of one whole number. The bits of the rows are the first ones.

    A run goes from the depot through customers and back. It may not go to a customer that its last one remembers. A row is
    opened by a customer of its set and closed by the next one, which costs the multiplier of the row. A customer that
    doesn't keep a row forgets that it is open."""

    def __init__(self, fleet: Fleet, lists: list[list[int]], rows: list[list[list[int]]]) -> None:
        self.fleet, self.rows, self.stands = fleet, rows, bool(lists or rows)
        self.near: dict[int, list[int]] = {}
        for customer, *others in lists:
            if customer == fleet.depot or customer in self.near or self.again([customer, *others]):
                raise No(f"BadMemory {customer}")
            self.near[customer] = others
        for number, (nodes, more) in enumerate(rows, 1):
            if len(nodes) < 2 or self.again([*nodes, *more]):
                raise No(f"BadRow {number}")
        for customer in fleet.customers:
            kept = sum(customer in nodes or customer in more for nodes, more in rows)
            if len(self.near.get(customer, [])) + kept > 64:
                raise No(f"BadMemory {customer}")

    def again(self, nodes: list[int]) -> bool:
        """Whether a node comes twice, or the depot comes."""
        return len({self.fleet.depot, *nodes}) <= len(nodes)

    def given_back(self, gains: list[int]) -> int:
        """What the rows cost all routes together at most."""
        return sum(gain * (len(nodes) // 2) for gain, (nodes, _) in zip(gains, self.rows))

    def ways_home(self, rows: list[list[int]], loads: list[int], room: int) -> list[dict[int, int]]:
        """By load and customer, the least weight back to the depot with nothing remembered."""
        depot, ways = self.fleet.depot, [{} for _ in range(room + 1)]  # type: int, list[dict[int, int]]
        for load in range(room, 0, -1):
            for node in self.fleet.customers:
                row, fits = rows[node], [to for to in self.fleet.customers if to != node and load + loads[to] <= room]
                ways[load][node] = min([row[depot], *(row[to] + ways[load + loads[to]][to] for to in fits)])
        return ways

    def least_run(self, row: Row, gains: list[int], loads: list[int], room: int, most: int, leaf: int) -> int:
        """The least weight of a run, or this where all weigh more. States by load and customer have the least weight of a
        run so far, by what it remembers. Those that can't end below `most` are left out."""
        depot, customers = self.fleet.depot, self.fleet.customers
        rows = [row(max(1, node)) for node in range(self.fleet.count + 1)]
        home, open_rows = self.ways_home(rows, loads, room), [(gain, *it) for gain, it in zip(gains, self.rows)]
        bit = {node: 1 << len(open_rows) + place for place, node in enumerate(customers)}
        inside, keeps = dict.fromkeys(customers, 0), {node: sum(bit[it] for it in self.near.get(node, [])) for node in customers}
        for place, (_, nodes, more) in enumerate(open_rows):
            for node in (*nodes, *more):
                keeps[node] |= 1 << place
                inside[node] |= (1 << place) * (node in nodes)
        costs: dict[int, int] = {0: 0}  # of open rows
        layers: list[dict[int, dict[int, int]]] = [{} for _ in range(room + 1)]
        for node in customers:
            if loads[node] <= room and rows[depot][node] + home[loads[node]][node] < most:
                layers[loads[node]].setdefault(node, {})[inside[node]] = rows[depot][node]
        least, count = most, 0
        for load, layer in enumerate(layers):
            for node, states in layer.items():
                count += len(states)
                if count > MOST_STATES:
                    raise No(f"TooManyStates {leaf}")
                least = min(least, min(states.values()) + rows[node][depot])
                ways = sorted((rows[node][to] + home[load + loads[to]][to], rows[node][to], to) for to in customers
                              if to != node and load + loads[to] <= room)
                for known, weight in states.items():
                    for whole_way, link, to in ways:
                        if weight + whole_way >= most:
                            break
                        if known & bit[to]:
                            continue
                        closed = known & inside[to]
                        if closed not in costs:
                            costs[closed] = sum(own[0] for place, own in enumerate(open_rows) if closed >> place & 1)
                        if weight + whole_way + costs[closed] < most:
                            after, sum_ = ((known | bit[node]) & keeps[to]) ^ inside[to], weight + link + costs[closed]
                            others = layers[load + loads[to]].setdefault(to, {})
                            others[after] = min(sum_, others.get(after, sum_))
            layers[load] = {}
        return least


def routes_of(instance: Fields, solution: Fields, cost: Costs, count: int) -> tuple[Fleet, list[list[int]]]:
    """The routes, if no reason is against them."""
    see_solution(instance, solution, cost, count)
    fleet, routes = Fleet(instance, count), tours_in(solution)
    places = [node for route in routes for node in route]
    if fleet.depot in places:
        raise No(f"DepotInRoute {places.index(fleet.depot) + 1}")
    see_places(places, count)
    missing = set(fleet.customers) - set(places)
    if missing:
        raise No(f"Unserved {min(missing)}")
    for number, route in enumerate(routes, 1):
        if fleet.load(route) > fleet.capacity:
            raise No(f"Overload {number}")
    return fleet, routes


Limited = tuple[list[int], list[int], list[int]]


def plan_cases(steps: list[list[int]], low: list[int], high: list[int], count: int) -> Iterator[Limited]:
    """The leaves, each with how often plans of its case cross each family at the least and at the most."""
    open_cases = [(low, high)]
    for step in steps:
        low, high = open_cases.pop()
        if step[0] == 0:
            yield step, low, high
            continue
        family, times = step[0] - count - 1, step[1]
        more, fewer = list(low), list(high)
        more[family], fewer[family] = max(low[family], 2 * times + 2), min(high[family], 2 * times)
        open_cases += [(more, high), (low, fewer)]


def by_places(step: list[int], count: int, first_row: int) -> list[int]:
    """A step whose indices are places: multipliers of rows follow those of the families. What has no place gets a large one."""
    if step[0] != 0:
        return step
    places = [index if index < first_row else index - count - FIRST_ROW + first_row if index >= count + FIRST_ROW else sys.maxsize
              for index in step[1::2]]
    return [0, *(number for pair in zip(places, step[2::2]) for number in pair)]


def route_bounds(instance: Fields, file: Fields, cost: Costs, count: int) -> Iterator[tuple[list[int], list[int], Optional[int]]]:
    """Of each leaf how often its routes cross each family at the least and at the most, and its bound, if no reason is
    against the tree. A leaf without a walk has none."""
    combs, steps = tree_in(file, count)
    fleet = Fleet(instance, count)
    for number, comb in enumerate(combs, 1):
        if len(comb) != 1 or len(set(comb[0])) < len(comb[0]) or fleet.depot in comb[0]:
            raise No(f"BadComb {number}")
    memory = Memory(fleet, *memory_in(file, count))
    sets = [set(comb[0]) for comb in combs]
    on_branches(file, count, [step for step in steps if step[0] != 0], range(count + 1, count + len(sets) + 1))
    scale, (loads, room) = scale_of(file), fleet.loads(unit_of(file))
    first_row = count + len(sets) + 1
    numbers = [0] * (first_row + len(memory.rows))
    steps = [by_places(step, count, first_row) for step in steps]
    for leaf, step in enumerate((step for step in steps if step[0] == 0), 1):
        add_step(file, numbers, leaf, step)
        sums = sum(map(abs, numbers[count + 1 :]))
        if max(map(abs, numbers[: count + 1])) > 10**15 or sums > 3 * 10**17 or min(numbers[first_row:], default=0) < 0:
            raise No(f"BadLeaf {leaf}")
    if count * (room + 1) > MOST_LOADS:
        raise No("TooManyLoads")
    numbers, leaves = [0] * len(numbers), sum(step[0] == 0 for step in steps)
    needs = [2 * fleet.need(list(nodes)) for nodes in sets]
    for leaf, (step, low, high) in enumerate(plan_cases(steps, needs, [2 * (count - 1)] * len(sets), count), 1):
        show(f"leaf {leaf} of {leaves}")
        add_step(file, numbers, leaf, step)
        p, m, gains = numbers[: count + 1], numbers[count + 1 : first_row], numbers[first_row:]
        active = [(number, nodes) for number, nodes in zip(m, sets) if number]
        row = weights_of(scale, cost, p, active, [])
        twice = 2 * p[fleet.depot]
        least = memory.least_run(row, gains, loads, room, twice, leaf) if memory.stands else fleet.least_walk(row, loads, room)
        if least is None:
            yield low, high, None
            continue
        each = least - twice
        value = min(fleet.need(fleet.customers) * each, len(fleet.customers) * each)
        value -= 2 * sum(p[node] for node in fleet.customers) + memory.given_back(gains)
        value += sum(number * (a if number > 0 else b) for number, a, b in zip(m, low, high))
        yield low, high, up(value, scale)


def bound_of(kind: str, instance: Fields, file: Fields, cost: Costs, count: int) -> Optional[int]:
    """The bound of a certificate, if no reason is against it: of a tree of cases the least one of the leaves, if one has any."""
    if kind == "potentials":
        return bound_by_potentials(instance, file, cost, count)
    given = instance, file, cost, count
    bounds = tour_bounds(*given) if kind == "branches" else (bound for *_, bound in route_bounds(*given))
    return min([bound for bound in bounds if bound is not None], default=None)


def look_at(file: Fields) -> None:
    """Looks for faults of a solution or a certificate, which come before any reason."""
    for name in READ.intersection(file):
        wholes(file, name)
    kind = (file["TYPE"] or ["nothing"])[0]
    if kind not in NEEDED:
        raise file.faulty("TYPE", f"{kind} isn't read here")
    for name in NEEDED[kind]:
        file[name]
    for place, node in enumerate(wholes(file, "TOUR_SECTION")):
        if node != -1 and not 1 <= node <= MOST_NODES:
            raise file.faulty("TOUR_SECTION", f"nodes count from 1 to {MOST_NODES}, and this is {node}", place)


def report(instance: Fields, solution: Fields, kind: str, certificate: Optional[Fields]) -> int:
    """Prints the report, and returns the status."""
    count = dimension_of(instance)
    lines = [f"type {instance['TYPE'][0]}", f"nodes {count}", *(f"not judged {keyword}" for keyword in instance["not judged"])]
    for fields in filter(None, (solution, certificate)):
        look_at(fields)
    try:
        cost = costs_of(instance, count)
        if kind == "routes":
            fleet, routes = routes_of(instance, solution, cost, count)
            length = fleet.length(cost, routes)
            found = [f"routes {len(routes)}", f"least {-(-fleet.load(fleet.customers) // fleet.capacity)}"]
        else:
            tour = tour_of(instance, solution, cost, count)
            length, found = around(tour, cost), []
        found.append(f"length {length}")
        if certificate is not None:
            bound = bound_of(kind, instance, certificate, cost, count)
            if bound is None:
                raise certificate.faulty("BRANCH_SECTION", "no leaf has a bound")
            show("")
            found += [f"bound {bound}", "optimal" if bound == length else f"gap {length - bound}"]
    except No as reason:
        print("\n".join([*lines, f"no {reason}"]))
        return 1
    print("\n".join([*lines, *found, "yes"]))
    return 0


TIMES = (
    "How long it takes: with potentials n * n steps, 3 seconds for 1,000 nodes. With branches as many for each"
    " leaf, 1 to 2 seconds a leaf for 1,000 nodes, and a tenth of that where numpy is installed. The tour alone"
    " takes n steps. With branches for routes a leaf takes n * n steps for each load, 1 second for 100 nodes and 100 loads."
)


def main() -> int:
    words = argparse.ArgumentParser(
        description="Checks a tour or routes anew, in Python and whole numbers.", epilog=TIMES
    )
    words.add_argument("instance", metavar="F", help="a file of TYPE TSP, ATSP or CVRP")
    words.add_argument("solution", metavar="T", help="a file of TYPE TOUR")
    kinds = words.add_mutually_exclusive_group()
    kinds.add_argument("--potentials", metavar="P", help="a file of TYPE POTENTIALS")
    kinds.add_argument("--branches", metavar="B", help="a file of TYPE BRANCHES")
    given = words.parse_args()
    kind = "branches" if given.branches else "potentials"
    path = given.branches or given.potentials
    try:
        files = [fields_of(name) for name in (given.instance, given.solution)]
        name = files[0].get("TYPE", [""])[0]
        if name not in ("TSP", "ATSP", "CVRP"):
            refuse(f"{given.instance}: its TYPE has to be TSP, ATSP or CVRP")
        if name == "CVRP" and given.potentials:
            refuse(f"{path}: potentials bound no routes")
        kind = "routes" if name == "CVRP" else kind
        return report(*files, kind, fields_of(path) if path else None)
    except OSError as fault:
        refuse(f"{fault.filename}: {fault.strerror}")
    except Faulty as fault:
        refuse(fault)
    except (ArithmeticError, LookupError, RuntimeError, StopIteration, TypeError, ValueError):
        names = ", ".join(filter(None, (given.instance, given.solution, path)))
        refuse(f"one of the files isn't as docs/format.md says: {names}")


if __name__ == "__main__":
    sys.exit(main())
