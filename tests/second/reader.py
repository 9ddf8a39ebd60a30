"""A second reader of TSPLIB files, plain and slow, written from docs/format.md alone. It reads a text that is whole.

`read` returns the file of a text, or raises its first fault. For writer.py, judge.py, bounds.py, routes.py, generate.py and
tests/second/run.
"""
from __future__ import annotations

import re
from collections.abc import Callable
from dataclasses import dataclass, field
from typing import Any

BLANKS = b"\t\x0b\x0c\r "
FINE = 10**9  # coordinates are whole multiples of 1 / FINE
NUMBER = re.compile(rb"([+-]?)(\d*)(?:\.(\d*))?(?:[eE]([+-]?\d+))?$")
CLOSED_WORD = b"-1"  # more of these two bytes are ignored where a section has ended

TYPES = ["TSP", "ATSP", "CVRP", "TOUR", "POTENTIALS", "BRANCHES"]
INSTANCES = ("TSP", "ATSP", "CVRP")
LAYOUTS = ["FULL_MATRIX", "UPPER_ROW", "LOWER_ROW", "UPPER_DIAG_ROW", "LOWER_DIAG_ROW",
           "UPPER_COL", "LOWER_COL", "UPPER_DIAG_COL", "LOWER_DIAG_COL"]
WORDS = {
    "TYPE": TYPES,
    "EDGE_WEIGHT_TYPE": ["EXPLICIT", "EUC_2D", "CEIL_2D", "MAN_2D", "MAX_2D", "ATT", "EUC_3D", "MAN_3D", "MAX_3D"],
    "EDGE_WEIGHT_FORMAT": ["FUNCTION", *LAYOUTS],
    "NODE_COORD_TYPE": ["TWOD_COORDS", "THREED_COORDS", "NO_COORDS"],
    "DISPLAY_DATA_TYPE": ["COORD_DISPLAY", "TWOD_DISPLAY", "NO_DISPLAY"],
}
LEFT_OUT = {"TYPE": ["SOP", "HCP"], "EDGE_WEIGHT_TYPE": ["GEO", "XRAY1", "XRAY2", "SPECIAL"]}
NUMBERS = {"DIMENSION": (1, 100_000), "CAPACITY": (1, 10**12), "SCALE": (1, 1_000_000), "LOAD_UNIT": (1, 10**12)}
TEXTS = ["NAME", "COMMENT"]
OUTSIDE = ["EDGE_DATA_FORMAT", "EDGE_DATA_SECTION"]
# In the order of the table, which is that of incomplete sections.
SECTIONS = ["NODE_COORD_SECTION", "DISPLAY_DATA_SECTION", "DEMAND_SECTION", "DEPOT_SECTION", "FIXED_EDGES_SECTION",
            "EDGE_WEIGHT_SECTION", "TOUR_SECTION", "NODE_POTENTIAL_SECTION", "ROW_POTENTIAL_SECTION",
            "COLUMN_POTENTIAL_SECTION", "FIXED_EDGE_POTENTIAL_SECTION", "COMB_SECTION", "MEMORY_SECTION", "SUBSET_ROW_SECTION",
            "BRANCH_SECTION"]
GROUPS = {"DEMAND_SECTION": (0, 10**9), **dict.fromkeys(SECTIONS[7:10], (-(10**15), 10**15))}
SPATIAL = {"NODE_COORD_TYPE": ["THREED_COORDS"], "EDGE_WEIGHT_TYPE": ["EUC_3D", "MAN_3D", "MAX_3D"]}


class Fault(Exception):
    """The first fault of a text, as the program prints it."""


class Wrong(Exception):
    """A fault of a word or a line, whose place isn't known yet."""


@dataclass
class File:
    """What a text parses to: the values of keywords, and the words of sections."""

    values: dict[str, Any] = field(default_factory=dict)
    comments: list[bytes] = field(default_factory=list)
    others: list[tuple[bytes, bytes]] = field(default_factory=list)
    sections: dict[str, Any] = field(default_factory=dict)

    @property
    def type(self) -> str:
        return str(self.values["TYPE"])

    @property
    def nodes(self) -> int:
        return int(self.values["DIMENSION"])

    def spatial(self) -> bool:
        return any(self.values.get(key) in words for key, words in SPATIAL.items())


def decimal(word: bytes) -> tuple[int, int]:
    """The whole number m and the exponent e of a number word m 10^e, m without zeros at its end."""
    if len(word) > 64:
        raise Wrong("Number LongWord")
    found = NUMBER.match(word)
    if found is None or not (found[2] or found[3]):
        raise Wrong("Number BadNumber")
    digits = found[2] + (found[3] or b"")
    exponent = int(found[4] or 0) - len(found[3] or b"")
    bare = digits.rstrip(b"0")
    number = int(bare or 0)
    return (-number if found[1] == b"-" else number), (exponent + len(digits) - len(bare) if number else 0)


def whole(word: bytes, least: int, most: int, but: int | None = None) -> int:
    """A whole number in a range, other than one of them."""
    number, exponent = decimal(word)
    if exponent < -9:
        raise Wrong("Number TooFine")
    if exponent < 0:
        raise Wrong("Number NotWhole")
    value = number * 10**exponent if exponent < 40 else number * 10**40
    if not least <= value <= most or value == but:
        raise Wrong("Number OutOfRange")
    return value


def coordinate(word: bytes) -> int:
    """A coordinate, in multiples of 1 / FINE."""
    number, exponent = decimal(word)
    if exponent < -9:
        raise Wrong("Number TooFine")
    value = number * 10 ** (exponent + 9) if exponent < 40 else number * 10**40
    if abs(value) > FINE * FINE:
        raise Wrong("Number OutOfRange")
    return value


class Section:
    """The words of a section as they come. `take` reads a word; `is_whole` says whether it may end here."""

    def __init__(self, nodes: int) -> None:
        self.nodes = nodes

    def take(self, word: bytes) -> None:
        raise NotImplementedError

    def is_whole(self) -> bool:
        return True


class Groups(Section):
    """A section by node: each node once, with so many numbers."""

    def __init__(self, nodes: int, numbers: int, read: Callable[[bytes], int]) -> None:
        super().__init__(nodes)
        self.numbers, self.read = numbers, read
        self.of: dict[int, list[int]] = {}
        self.node, self.rest = 0, 0

    def take(self, word: bytes) -> None:
        if self.is_whole():
            if word != CLOSED_WORD:
                raise Wrong("Surplus")
        elif self.rest:
            self.of[self.node].append(self.read(word))
            self.rest -= 1
        else:
            self.node, self.rest = whole(word, 1, self.nodes), self.numbers
            if self.node in self.of:
                raise Wrong("RepeatedNode")
            self.of[self.node] = []

    def is_whole(self) -> bool:
        return len(self.of) == self.nodes and not self.rest


class Listed(Section):
    """A list that -1 ends: of depots, pairs or triples. `parts` reads the words of an entry after the first."""

    MOST = 100_000

    def __init__(self, nodes: int, parts: list[Callable[[bytes], int]]) -> None:
        super().__init__(nodes)
        self.parts, self.ended = parts, False
        self.entries: list[tuple[int, ...]] = []
        self.entry: list[int] = []

    def take(self, word: bytes) -> None:
        if self.ended:
            if word != CLOSED_WORD:
                raise Wrong("AfterEnd")
            return
        if self.entry:
            self.entry.append(self.parts[len(self.entry) - 1](word))
            if len(self.entry) == 2 and self.entry[0] == self.entry[1]:
                raise Wrong("SelfEdge")
        else:
            node = whole(word, -1, self.nodes, but=0)
            if node == -1:
                self.ended = True
                return
            if len(self.entries) == self.MOST:
                raise Wrong("Surplus")
            self.entry = [node]
        if len(self.entry) == 1 + len(self.parts):
            self.entries.append(tuple(self.entry))
            self.entry = []

    def is_whole(self) -> bool:
        return not self.entry


class Weights(Section):
    """The weights of a matrix."""

    def __init__(self, nodes: int) -> None:
        super().__init__(nodes)
        self.weights: list[int] = []

    def take(self, word: bytes) -> None:
        if len(self.weights) == self.nodes**2:
            raise Wrong("Surplus")
        self.weights.append(whole(word, -(10**12), 10**12))


class Tours(Section):
    """Tours or routes."""

    def __init__(self, nodes: int) -> None:
        super().__init__(nodes)
        self.runs: list[list[int]] = [[]]
        self.count = 0

    def take(self, word: bytes) -> None:
        node = whole(word, -1, 100_000, but=0)
        if node == -1:
            self.runs.append([])
            return
        if self.count == 1_000_000:
            raise Wrong("Surplus")
        self.count += 1
        self.runs[-1].append(node)

    @property
    def tours(self) -> list[list[int]]:
        return [run for run in self.runs if run]


class Lists(Section):
    """Lists of nodes, each ended by -1, and all of them by one more."""

    def __init__(self, nodes: int) -> None:
        super().__init__(nodes)
        self.ended, self.count = False, 0

    def take(self, word: bytes) -> None:
        if self.ended:
            if word != CLOSED_WORD:
                raise Wrong("AfterEnd")
            return
        node = whole(word, -1, self.nodes, but=0)
        if node == -1:
            self.close()
            return
        if self.count == 1_000_000 or self.is_full():
            raise Wrong("Surplus")
        self.count += 1
        self.put(node)

    def is_full(self) -> bool:
        """Whether no more of them can begin here."""
        return False


class Combs(Lists):
    """Families of sets."""

    def __init__(self, nodes: int) -> None:
        super().__init__(nodes)
        self.families: list[list[list[int]]] = []
        self.in_set = self.in_family = False

    def close(self) -> None:
        self.ended = not self.in_family
        self.in_family, self.in_set = self.in_set, False

    def is_full(self) -> bool:
        return not self.in_family and len(self.families) == 10_000

    def put(self, node: int) -> None:
        if not self.in_family:
            self.families.append([])
        if not self.in_set:
            self.families[-1].append([])
        self.in_family = self.in_set = True
        self.families[-1][-1].append(node)

    def is_whole(self) -> bool:
        return not self.in_family


class Memory(Lists):
    """Lists of the customers that a customer remembers, which follow it."""

    def __init__(self, nodes: int) -> None:
        super().__init__(nodes)
        self.lists: list[list[int]] = []
        self.in_list = False

    def close(self) -> None:
        self.ended, self.in_list = not self.in_list, False

    def put(self, node: int) -> None:
        self.lists += [] if self.in_list else [[]]
        self.in_list = True
        self.lists[-1].append(node)

    def is_whole(self) -> bool:
        return not self.in_list


class SubsetRows(Lists):
    """Subset rows: of each a set and the further customers that keep it."""

    def __init__(self, nodes: int) -> None:
        super().__init__(nodes)
        self.rows: list[tuple[list[int], list[int]]] = []
        self.part = 2  # what the next word goes on: the set (0), the further customers (1), or the section

    def close(self) -> None:
        self.ended, self.part = self.part == 2, min(2, self.part + 1)

    def is_full(self) -> bool:
        return self.part == 2 and len(self.rows) == 10_000

    def put(self, node: int) -> None:
        if self.part == 2:
            self.rows.append(([], []))
            self.part = 0
        self.rows[-1][self.part].append(node)

    def is_whole(self) -> bool:
        return self.part == 2


class Tree(Section):
    """The steps of a tree of cases: a branch is a pair of nodes or a family and its limit, a leaf a list of pairs of index
    and difference."""

    def __init__(self, nodes: int) -> None:
        super().__init__(nodes)
        self.steps: list[tuple[str, list]] = []
        self.open = 1
        self.inside = ""  # what the next word goes on: nothing, "branch", "leaf" or "index"
        self.branches = self.differences = 0

    def take(self, word: bytes) -> None:
        if self.is_whole():
            if word != CLOSED_WORD:
                raise Wrong("Surplus")
        elif self.inside == "branch":
            pair = self.steps[-1][1]
            pair.append(whole(word, 1, self.nodes))
            if pair[0] == pair[1]:
                raise Wrong("SelfEdge")
            self.inside, self.open = "", self.open + 1
        elif self.inside == "index":
            self.steps[-1][1][-1].append(whole(word, -2 * 10**15, 2 * 10**15))
            self.inside = "leaf"
        elif self.inside == "leaf":
            index = whole(word, -1, self.nodes + 20_000, but=0)
            if index == -1:
                self.inside, self.open = "", self.open - 1
                return
            if self.differences == 10_000_000:
                raise Wrong("Surplus")
            self.differences += 1
            self.steps[-1][1].append([index])
            self.inside = "index"
        else:
            self.begin(whole(word, 0, self.nodes + 10_000))

    def begin(self, word: int) -> None:
        """A step begins with this word."""
        if word == 0:
            self.steps.append(("leaf", []))
            self.inside = "leaf"
            return
        if self.branches == 1_000_000:
            raise Wrong("Surplus")
        self.branches += 1
        self.steps.append(("branch", [word]))
        self.inside = "branch"

    def is_whole(self) -> bool:
        return self.open == 0 and not self.inside


def opened(name: str, file: File) -> Section:
    """A section that begins."""
    nodes = file.values.get("DIMENSION", 0)

    def node(word: bytes) -> int:
        return whole(word, 1, nodes)

    if name == "NODE_COORD_SECTION":
        return Groups(nodes, 3 if file.spatial() else 2, coordinate)
    if name == "DISPLAY_DATA_SECTION":
        return Groups(nodes, 2, coordinate)
    if name in GROUPS:
        least, most = GROUPS[name]
        return Groups(nodes, 1, lambda word: whole(word, least, most))
    if name == "DEPOT_SECTION":
        return Listed(nodes, [])
    if name == "FIXED_EDGES_SECTION":
        return Listed(nodes, [node])
    if name == "FIXED_EDGE_POTENTIAL_SECTION":
        return Listed(nodes, [node, lambda word: whole(word, 0, 10**15)])
    if name == "BRANCH_SECTION":
        return Tree(nodes)
    kinds = {"EDGE_WEIGHT_SECTION": Weights, "TOUR_SECTION": Tours, "COMB_SECTION": Combs, "MEMORY_SECTION": Memory,
             "SUBSET_ROW_SECTION": SubsetRows}
    return kinds[name](nodes)


def parts_of(line: bytes) -> tuple[str, bool, bytes]:
    """The keyword of a word line, whether a colon follows it, and its value."""
    keyword = re.split(rb"[\t\x0b\x0c\r :]", line, maxsplit=1)[0]
    rest = line[len(keyword):].lstrip(BLANKS)
    has_colon = rest.startswith(b":")
    value = rest[1:] if has_colon else rest
    return keyword.decode("latin-1"), has_colon, value.strip(BLANKS)


class Reader:
    """A text that is read line by line."""

    def __init__(self) -> None:
        self.file = File()
        self.section: Section | None = None

    def word_line(self, line: bytes) -> bool:
        """Takes a word line; whether it ends the text."""
        if len(line) > 4_096:
            raise Wrong("LongLine")
        keyword, has_colon, value = parts_of(line)
        if keyword == "EOF":
            return True
        name = "FIXED_EDGES_SECTION" if keyword == "FIXED_EDGES" else keyword
        if name in SECTIONS:
            self.open_section(name, value)
        elif name in OUTSIDE:
            raise Wrong("Outside")
        else:
            self.section = None
            self.keyword(name, has_colon, value)
        return False

    def open_section(self, name: str, value: bytes) -> None:
        file = self.file
        if name in file.sections:
            raise Wrong("Repeated")
        if value:
            raise Wrong("SectionValue")
        if "DIMENSION" not in file.values and name != "TOUR_SECTION":
            raise Wrong("SectionEarly")
        if name == "EDGE_WEIGHT_SECTION" and file.nodes > 5_000:
            raise Wrong("TooManyNodes")
        self.section = file.sections[name] = opened(name, file)

    def keyword(self, name: str, has_colon: bool, value: bytes) -> None:
        file = self.file
        known = name in WORDS or name in NUMBERS or name in TEXTS
        if not known and not has_colon:
            raise Wrong("UnknownLine")
        if name in file.values:
            raise Wrong("Repeated")
        if not known or name in TEXTS:
            if len(name) + len(value) > 4_000:
                raise Wrong("BadValue")
            if name == "NAME":
                file.values[name] = value
                return
            kept, entry = (file.comments, value) if known else (file.others, (name.encode("latin-1"), value))
            if len(kept) == 1_000:
                raise Wrong("Surplus")
            kept.append(entry)
            return
        first = (value.split() or [b""])[0]
        if name in NUMBERS:
            if not first:
                raise Wrong("BadValue")
            file.values[name] = whole(first, *NUMBERS[name])
            return
        word = first.decode("latin-1")
        if word in LEFT_OUT.get(name, []):
            raise Wrong("Outside")
        if word not in WORDS[name]:
            raise Wrong("BadValue")
        if word in SPATIAL.get(name, []) and getattr(file.sections.get("NODE_COORD_SECTION"), "numbers", 3) == 2:
            raise Wrong("LateSpace")
        file.values[name] = word

    def line(self, number: int, line: bytes) -> bool:
        """Takes a line; whether it ends the text."""
        bare = line.lstrip(BLANKS)
        place = 0
        try:
            if bare[:1].isalpha():
                return self.word_line(bare)
            for place, word in enumerate(bare.split(), 1):
                if self.section is None:
                    raise Wrong("StrayNumber")
                self.section.take(word)
        except Wrong as wrong:
            raise Fault(f"line {number} word {place}: {wrong}") from None
        return False


def missing(file: File) -> str:
    """The first field that is missing, or nothing."""
    values, sections = file.values, file.sections
    if "TYPE" not in values:
        return "TYPE"
    kind = file.type
    is_instance, is_explicit = kind in INSTANCES, values.get("EDGE_WEIGHT_TYPE") == "EXPLICIT"
    sides = {"ROW_POTENTIAL_SECTION", "COLUMN_POTENTIAL_SECTION"}
    given = sides & sections.keys()
    wanted = [
        ("DIMENSION", kind != "TOUR"),
        ("EDGE_WEIGHT_TYPE", is_instance),
        ("EDGE_WEIGHT_FORMAT", is_instance and is_explicit or "EDGE_WEIGHT_SECTION" in sections),
        ("CAPACITY", kind == "CVRP"),
        ("EDGE_WEIGHT_SECTION" if is_explicit else "NODE_COORD_SECTION", is_instance),
        ("DEMAND_SECTION", kind == "CVRP"),
        ("DEPOT_SECTION", kind == "CVRP"),
        ("TOUR_SECTION", kind == "TOUR"),
        ("NODE_POTENTIAL_SECTION", kind == "POTENTIALS" and not given),
        *((side, kind == "POTENTIALS" and len(given) == 1) for side in sides),
        ("BRANCH_SECTION", kind == "BRANCHES"),
    ]
    return next((name for name, is_wanted in wanted if is_wanted and name not in values and name not in sections), "")


def end_fault(file: File) -> str:
    """The end fault of a file whose lines have none, or nothing."""
    if name := missing(file):
        return f"Missing {name}"
    for name in SECTIONS:
        if name in file.sections and not file.sections[name].is_whole():
            return f"Incomplete {name}"
    values, sections = file.values, file.sections
    listed = "EDGE_WEIGHT_SECTION" in sections
    required = file.type in INSTANCES and values["EDGE_WEIGHT_TYPE"] == "EXPLICIT"
    if (listed or required) and values["EDGE_WEIGHT_FORMAT"] == "FUNCTION":
        return "WrongFormat"
    by_node = {"NODE_POTENTIAL_SECTION", "FIXED_EDGE_POTENTIAL_SECTION"}
    if file.type == "POTENTIALS" and sections.keys() & by_node and sections.keys() & set(SECTIONS[8:10]):
        return "WrongFormat"
    if listed and len(sections["EDGE_WEIGHT_SECTION"].weights) != cell_count(values["EDGE_WEIGHT_FORMAT"], file.nodes):
        return "WrongCount"
    return ""


def lines_of(layout: str, nodes: int) -> list[list[tuple[int, int]]]:
    """The cells of each row or column of a layout, in the order in which they are listed."""
    everything = range(1, nodes + 1)
    if layout == "FULL_MATRIX":
        return [[(i, j) for j in everything] for i in everything]
    half, *middle, way = layout.split("_")
    has_diagonal, by_row = middle == ["DIAG"], way == "ROW"

    def is_listed(i: int, j: int) -> bool:
        return has_diagonal if i == j else (i < j) == (half == "UPPER")

    lines = [[(a, b) if by_row else (b, a) for b in everything] for a in everything]
    return [[cell for cell in line if is_listed(*cell)] for line in lines]


def cells(layout: str, nodes: int) -> list[tuple[int, int]]:
    """The cells of a layout, in the order in which they are listed."""
    return [cell for line in lines_of(layout, nodes) for cell in line]


def cell_count(layout: str, nodes: int) -> int:
    """How many cells a layout has."""
    if layout == "FULL_MATRIX":
        return nodes * nodes
    return nodes * (nodes + 1) // 2 if "DIAG" in layout else nodes * (nodes - 1) // 2


def read(text: bytes) -> File:
    """The file of a text; Fault where it has one."""
    reader = Reader()
    for number, line in enumerate(text.split(b"\n"), 1):
        if reader.line(number, line):
            break
    if fault := end_fault(reader.file):
        raise Fault(f"end: {fault}")
    return reader.file
