"""Cases for the program and the second reader: files whole and broken, numbers, distances, tours and certificates.

Each generator makes one case of a number. Those that choose from a product of choices take them in another order,
so that each comes once before one comes again. tests/second/run takes its cases of here, in the suite `second` of ./check.
"""
from __future__ import annotations

import random
from collections.abc import Callable
from dataclasses import dataclass
from math import isqrt, prod
from pathlib import Path

from reader import FINE, LAYOUTS, LEFT_OUT, NUMBERS, OUTSIDE, SECTIONS, TEXTS, WORDS, lines_of

EXAMPLES = Path(__file__).resolve().parents[2] / "examples"
TYPES = WORDS["TYPE"]
FLAT = ["EUC_2D", "CEIL_2D", "MAN_2D", "MAX_2D", "ATT"]
SPATIAL = ["EUC_3D", "MAN_3D", "MAX_3D"]


@dataclass(frozen=True)
class Case:
    """A run: the verb, its files in order, and its options. The certificate is the last file where there is a kind."""

    verb: str
    texts: tuple[bytes, ...]
    kind: str = ""
    layout: str = ""
    claim: bytes = b""


def choice_of(number: int, *choices: list) -> list:
    """The choices of a product that have this number, when they are taken in an order without a pattern."""
    size = prod(map(len, choices))
    place = number * 1_000_003 % size  # (a prime)
    picked = []
    for choice in choices:
        place, rest = divmod(place, len(choice))
        picked.append(choice[rest])
    return picked


def joined(*lines: str) -> bytes:
    return "".join(f"{line}\n" for line in lines).encode("latin-1")


# ---- small whole files, of which the others are made

POINTS = ["NODE_COORD_SECTION", "1 0 0", "2 3 0", "3 3 4", "4 0 4"]
HEADS = {
    "TSP": ["TYPE : TSP", "DIMENSION : 4", "EDGE_WEIGHT_TYPE : EUC_2D"],
    "ATSP": ["TYPE : ATSP", "DIMENSION : 4", "EDGE_WEIGHT_TYPE : EXPLICIT", "EDGE_WEIGHT_FORMAT : FULL_MATRIX"],
    "CVRP": ["TYPE : CVRP", "DIMENSION : 4", "CAPACITY : 8", "EDGE_WEIGHT_TYPE : EUC_2D"],
    "TOUR": ["TYPE : TOUR", "DIMENSION : 4"],
    "POTENTIALS": ["TYPE : POTENTIALS", "DIMENSION : 4", "SCALE : 2"],
    "BRANCHES": ["TYPE : BRANCHES", "DIMENSION : 6", "LOAD_UNIT : 4"],
}
BODIES = {
    "NODE_COORD_SECTION": "1 0 0 2 3 0 3 3 4 4 0 4",
    "DISPLAY_DATA_SECTION": "1 0 0 2 3.5 0 3 3 -4 4 0 1e2",
    "DEMAND_SECTION": "1 0 2 4 3 4 4 4",
    "DEPOT_SECTION": "1 -1",
    "FIXED_EDGES_SECTION": "1 2 4 3 -1",
    "EDGE_WEIGHT_SECTION": "0 1 2 3 1 0 4 5 2 4 0 6 3 5 6 0",
    "TOUR_SECTION": "1 2 3 4 -1",
    "NODE_POTENTIAL_SECTION": "1 0 2 1 3 0 4 -2",
    "ROW_POTENTIAL_SECTION": "1 0 2 1 3 0 4 -2",
    "COLUMN_POTENTIAL_SECTION": "1 0 2 1 3 0 4 0",
    "FIXED_EDGE_POTENTIAL_SECTION": "1 2 3 4 3 0 -1",
    "COMB_SECTION": "1 2 3 -1 1 4 -1 2 -1 -1 1 -1 -1 -1",
    "MEMORY_SECTION": "2 3 4 -1 3 -1 -1",
    "SUBSET_ROW_SECTION": "2 3 -1 4 -1 3 4 -1 -1 -1",
    "BRANCH_SECTION": "1 2 0 4 1 3 -7 -1 7 1 0 -1 0 -1",
}
OF_TYPE = {
    "TSP": ["NODE_COORD_SECTION"], "ATSP": ["EDGE_WEIGHT_SECTION"], "TOUR": ["TOUR_SECTION"],
    "CVRP": ["NODE_COORD_SECTION", "DEMAND_SECTION", "DEPOT_SECTION"],
    "POTENTIALS": ["NODE_POTENTIAL_SECTION"], "BRANCHES": ["COMB_SECTION", "BRANCH_SECTION"],
}


def whole_lines(kind: str) -> list[str]:
    """The lines of a small file of this TYPE."""
    return HEADS[kind] + [line for name in OF_TYPE[kind] for line in (name, BODIES[name])]


# ---- lines, places and ends

ALL_KEYWORDS = [*TEXTS, *WORDS, *NUMBERS, *OUTSIDE, *SECTIONS, "FIXED_EDGES", "EOF", "FOO", "Type", "E\xe9", "DIMENSION1"]
ALL_VALUES = [*sum(WORDS.values(), []), *sum(LEFT_OUT.values(), []), "", "x", "4", "4.0", "+4e0", "0", "-1", "100000", "100001",
              "1e6", "1000001", "1e12", "1000000000001", "4 x", "4.5", "1e-10", "tsp", ":", "a" * 3_990, "a" * 3_996, "a" * 3_997, "a" * 4_001, "\xff \xe9"]


def word_line(pick: random.Random, number: int) -> Case:
    """A word line of any kind, at a place of a small file."""
    keyword, value, between, end, kind, where = choice_of(
        number, ALL_KEYWORDS, ALL_VALUES, [" : ", ":", " ", "", "\t:\x0b", " :", " : : "], ["", "\r", " \t"], TYPES, [0, 1, 2, 9])
    line = f"{pick.choice(['', '', ' ', chr(9)])}{keyword}{between}{value}{end}"
    lines = whole_lines(kind)
    if pick.randrange(2):  # in the place of the line with its keyword
        lines = [it for it in lines if it.split()[0] != keyword]
    lines.insert(min(where, len(lines)), line)
    if pick.randrange(12) == 0:
        lines.insert(pick.randrange(len(lines) + 1), line)
    return Case(pick.choice(["show", "convert"]), (joined(*lines),))


PLACES = [(name, at) for name, body in BODIES.items() for at in range(len(body.split()) + 1)]
PLACED = ["0", "-1", "-1.0", "-01", "+1", "1", "2", "3", "4", "5", "6", "7", "10004", "10005", "10006", "10007", "20006", "20007", "1.5", "1e3", "100000", "100001", "x", "-", ".", "1e",
          "1e-10", "1e12", "1000000000001", "-1000000000001", "1e15", "1000000000000001", "2e15", "-2000000000000001", "1e9", "1000000001",
          "1000000000.000000001", "1000000000", "-1e9", "0.000000001", "1e-9", "1" * 64, "1" * 65, "0" * 63 + "1", "\xff", "EOF"]


def place(pick: random.Random, number: int) -> Case:
    """A word at a place of a section: in the place of another, before it, or after all."""
    (name, at), word = choice_of(number, PLACES, PLACED)
    words, how = BODIES[name].split(), pick.randrange(6)
    if how == 0 or at == len(words):
        words.insert(at, word)
    elif how == 1:
        del words[at:]
    else:
        words[at] = word
    words += pick.choice([[], [], ["-1"], ["-1", "-1"], ["0"], ["-1.0"], ["1 -1"]])
    kind = next((kind for kind in TYPES if name in OF_TYPE[kind]), pick.choice(TYPES))
    if "POTENTIAL" in name:
        kind = "POTENTIALS"
    lines = list(HEADS[kind])
    for other in OF_TYPE[kind]:
        if other != name:
            lines += [other, BODIES[other]]
    if name == "COLUMN_POTENTIAL_SECTION":
        lines += ["ROW_POTENTIAL_SECTION", BODIES["ROW_POTENTIAL_SECTION"]]
    spread = "".join(word + pick.choice([" ", " ", "\n", "\n ", "\t", "\r\n"]) for word in words)
    return Case(pick.choice(["show", "convert", "convert"]), (joined(*lines, name, spread + pick.choice(["", "EOF", "EOF : x"])),))


def end(pick: random.Random, number: int) -> Case:
    """Any fields in any order, each missing, whole or cut short: what the end of a text is judged by."""
    kind, weights, layout = choice_of(number, ["", *TYPES], ["", "EXPLICIT", "EUC_2D", "EUC_3D"], ["", "FUNCTION", "FULL_MATRIX", "UPPER_ROW", "LOWER_DIAG_COL"])
    lines = [f"TYPE : {kind}"] if kind else []
    lines += [f"EDGE_WEIGHT_TYPE : {weights}"] if weights else []
    lines += [f"EDGE_WEIGHT_FORMAT : {layout}"] if layout else []
    lines += pick.choice([[], ["CAPACITY : 8"]]) + pick.choice([[], [], ["SCALE : 3"], ["LOAD_UNIT : 3"]])
    likely = set(OF_TYPE.get(kind, [])) | ({"EDGE_WEIGHT_SECTION"} if weights == "EXPLICIT" else set())
    bodies = []
    for name in SECTIONS:
        if pick.randrange(8) < (6 if name in likely else 1):
            words = BODIES[name].split()
            if name == "EDGE_WEIGHT_SECTION" and pick.randrange(2):
                words = words[: {"UPPER_ROW": 6, "LOWER_DIAG_COL": 10}.get(layout, 16)]
            if name == "NODE_COORD_SECTION" and weights == "EUC_3D":
                words = "1 0 0 0 2 1 1 1 3 2 2 2 4 5 5 5".split()
            if pick.randrange(6) == 0:
                words = words[: pick.randrange(len(words))]
            bodies.append(f"{name}\n{' '.join(words)}")
    pick.shuffle(bodies)
    before = ["DIMENSION : 4"] if pick.randrange(10) else []
    return Case(pick.choice(["show", "convert"]), (joined(*before, *lines, *bodies, *pick.choice([[], ["EOF"]])),))


# ---- numbers and distances


def number_word(pick: random.Random) -> str:
    """A number word, or almost one."""
    digits = lambda most: "".join(pick.choice("0123456789") for _ in range(pick.randrange(most)))
    word = pick.choice(["", "", "-", "+"]) + pick.choice(["", "0", "00"]) + digits(pick.choice([2, 3, 12, 20]))
    word += pick.choice(["", "", ".", "." + digits(4), "." + digits(12) + "0" * pick.randrange(4)])
    word += pick.choice(["", "", "", f"e{pick.randint(-12, 12)}", f"E+{pick.randint(0, 15)}", "e" + digits(5), "e-" + "9" * 30])
    if pick.randrange(6) == 0:
        at = pick.randrange(len(word) + 1)
        word = word[:at] + pick.choice(["+", "-", ".", "e", "x", "\0", "1" * 55]) + word[at + pick.randrange(2) :]
    return word or "0"


def numbers(pick: random.Random, number: int) -> Case:
    """Number words at places of each kind."""
    word = number_word(pick)
    kind = choice_of(number, ["point", "weight", "demand", "potential", "DIMENSION", "CAPACITY", "SCALE", "LOAD_UNIT", "multiplier", "claim"])[0]
    if kind == "claim":
        return Case("check", (joined(*whole_lines("TSP")), joined(*whole_lines("TOUR"))), claim=word.replace("\0", "").encode() or b"0")
    if kind == "point":
        points = POINTS[:-1] + [f"4 {word} {number_word(pick)}"]
        return Case(pick.choice(["show", "convert"]), (joined(*HEADS["TSP"], *points),))
    if kind == "weight":
        return Case("convert", (joined(*HEADS["ATSP"], "EDGE_WEIGHT_SECTION", " ".join(["1"] * 9 + [word] + ["1"] * 6)),))
    if kind == "demand":
        return Case("convert", (joined(*HEADS["CVRP"], *POINTS, "DEPOT_SECTION", "1", "DEMAND_SECTION", f"1 0 2 {word} 3 4 4 4"),))
    if kind == "potential":
        return Case("convert", (joined(*HEADS["POTENTIALS"], "NODE_POTENTIAL_SECTION", f"1 0 2 {word} 3 4 4 4"),))
    if kind == "multiplier":
        more = ["FIXED_EDGE_POTENTIAL_SECTION", f"1 2 {word} -1"]
        return Case("convert", (joined(*whole_lines("POTENTIALS"), *more),))
    lines = whole_lines("CVRP") + ["SCALE : 1", "LOAD_UNIT : 1"]
    return Case("convert", (joined(*(f"{kind} : {word}" if line.startswith(kind) else line for line in lines)),))


def coordinate_word(value: int) -> str:
    """A coordinate of so many multiples of 1 / FINE."""
    units, parts = divmod(abs(value), FINE)
    return f"{'-' if value < 0 else ''}{units}.{parts:09}"


def distances(pick: random.Random, number: int) -> Case:
    """Two points whose distance is beside a half or a whole number, from the smallest to the corners."""
    kind, magnitude, halves, beside = choice_of(number, FLAT + SPATIAL, list(range(10)), [0, 1], [-1, 0, 1])
    wanted = abs((2 * pick.randint(0, 14 * 10**magnitude // 5) + halves) * FINE // 2 + beside)
    if pick.randrange(3) == 0:  # a right triangle, whose third side is a whole number of parts
        part = wanted // 5
        steps = [3 * part, 4 * part + beside, 0]
    elif kind.startswith(("MAN", "MAX")):
        steps = [wanted, 0, 0] if kind.startswith("MAX") else [wanted // 2, wanted - wanted // 2, 0]
    else:
        square = 10 * wanted * wanted if kind == "ATT" else wanted * wanted
        first = pick.randrange(isqrt(square) + 1)
        steps = [first, isqrt(square - first * first) + pick.choice([0, 0, 1]), 0]
    if kind in SPATIAL:
        steps = [steps[0], steps[1] // 2, steps[1] - steps[1] // 2] if kind.startswith("MAN") else steps
        pick.shuffle(steps)
    most = FINE * FINE
    start = [pick.choice([0, -step // 2, -most if step > most else 0]) for step in steps]
    ends = [max(-most, min(most, a + step)) for a, step in zip(start, steps)]
    many = 3 if kind in SPATIAL else 2
    points = [" ".join(map(coordinate_word, point[:many])) for point in (start, ends)]
    return Case("show", (joined("TYPE : TSP", "DIMENSION : 2", f"EDGE_WEIGHT_TYPE : {kind}", "NODE_COORD_SECTION",
                                *(f"{node} {point}" for node, point in enumerate(points, 1))),))


# ---- instances, solutions and certificates


def matrix_lines(pick: random.Random, kind: str, nodes: int, most: int, uneven: int = 20) -> list[str]:
    """An EXPLICIT instance in any layout."""
    layout = "FULL_MATRIX" if kind == "ATSP" and pick.randrange(8) else pick.choice(LAYOUTS)
    weights: dict[tuple[int, int], int] = {}
    for line in lines_of(layout, nodes):
        for i, j in line:
            is_even = kind != "ATSP" and (j, i) in weights and pick.randrange(uneven * nodes * nodes)
            zero = i == j and pick.randrange(nodes + 1)
            weights[i, j] = weights[j, i] if is_even else 0 if zero else pick.randint(-most if pick.randrange(4) == 0 else 0, most)
    rows = [" ".join(str(weights[cell]) for cell in line) for line in lines_of(layout, nodes)]
    return [f"TYPE : {kind}", f"DIMENSION : {nodes}", "EDGE_WEIGHT_TYPE : EXPLICIT", f"EDGE_WEIGHT_FORMAT : {layout}", "EDGE_WEIGHT_SECTION", *rows]


def point_lines(pick: random.Random, kind: str, nodes: int) -> list[str]:
    """An instance of points."""
    weight = pick.choice(FLAT + SPATIAL)
    many = 3 if weight in SPATIAL else 2
    most = pick.choice([3, 100, 10**6])
    word = lambda: str(pick.randint(-most, most)) + pick.choice(["", "", ".5", ".25"])
    points = [" ".join([str(node), *(word() for _ in range(many))]) for node in range(1, nodes + 1)]
    return [f"TYPE : {kind}", f"DIMENSION : {nodes}", f"EDGE_WEIGHT_TYPE : {weight}", "NODE_COORD_SECTION", *points]


def instance_lines(pick: random.Random, kind: str, nodes: int) -> list[str]:
    """An instance, with fixed pairs and unknown keywords at times."""
    by_points = kind != "ATSP" and pick.randrange(2)
    most, uneven = pick.choice([3, 99, 10**9, 10**12]), 1 if kind == "CVRP" else 20
    lines = point_lines(pick, kind, nodes) if by_points else matrix_lines(pick, kind, nodes, most, uneven)
    if kind == "CVRP":
        demands = [f"{node} {0 if node == 1 else pick.randint(0, 9)}" for node in range(1, nodes + 1)]
        capacity = pick.randint(9, 40) if pick.randrange(8) else pick.randint(1, 8)
        lines += [f"CAPACITY : {capacity}", "DEMAND_SECTION", *demands, "DEPOT_SECTION", *pick.choice([["1"], ["1"], ["1"], ["2"], ["1 1"], []]), "-1"]
    if pick.randrange(4) == 0:
        lines.insert(pick.randrange(2), pick.choice(["DISTANCE : 9", "SERVICE_TIME : 1", "VEHICLES : 3"]))
    return lines


def tour_lines(pick: random.Random, tours: list[list[int]], nodes: int) -> list[str]:
    """A solution of these tours, at times with a fault of its own."""
    tours = [list(tour) for tour in tours]
    fault = pick.randrange(12)
    some = pick.choice([tour for tour in tours if tour] or [[1]])
    if fault == 0:
        some[pick.randrange(len(some))] = pick.choice([1, nodes, nodes + 1, some[0], 100_000])
    elif fault == 1:
        some.pop()
    elif fault == 2:
        some.append(pick.randint(1, nodes + 1))
    elif fault == 3:
        tours.append([pick.randint(1, nodes)])
    dimension = [f"DIMENSION : {nodes + (fault == 4)}"] if fault < 8 else []
    kind = "TSP" if fault == 5 and pick.randrange(3) == 0 else "TOUR"
    words = " -1\n".join(" ".join(map(str, tour)) for tour in tours)
    return [f"TYPE : {kind}", *dimension, "TOUR_SECTION", f"{words}{pick.choice([' -1', ''])}"]


def fixed_lines(pick: random.Random, tour: list[int]) -> tuple[list[tuple[int, int]], list[str]]:
    """Fixed pairs, most often of a tour, and their lines."""
    links = list(zip(tour, [*tour[1:], tour[0]]))
    pairs = [link if pick.randrange(4) else link[::-1] for link in pick.sample(links, min(len(links), pick.randint(1, 3)))]
    if pick.randrange(6) == 0:
        pairs.append(tuple(pick.sample(tour, 2)))
    return pairs, ["FIXED_EDGES_SECTION", *(f"{i} {j}" for i, j in pairs), "-1"]


def potential_lines(pick: random.Random, kind: str, nodes: int, pairs: list[tuple[int, int]]) -> list[str]:
    """A certificate of potentials, most often of the kind that the instance wants."""
    size = pick.choice([0, 5, 1000, 10**15])
    number = lambda: pick.randint(-size, size)
    lines = ["TYPE : POTENTIALS", f"DIMENSION : {nodes + (pick.randrange(15) == 0)}", *pick.choice([[], ["SCALE : 3"], ["SCALE : 1000000"]])]
    nodes += lines[1] != f"DIMENSION : {nodes}"
    sides = (kind == "ATSP") != (pick.randrange(15) == 0)
    for name in ["ROW_POTENTIAL_SECTION", "COLUMN_POTENTIAL_SECTION"] if sides else ["NODE_POTENTIAL_SECTION"]:
        lower = size if sides and pick.randrange(3) else 0
        lines += [name, *(f"{node} {max(-(10**15), number() - lower)}" for node in range(1, nodes + 1))]
    if pairs and not sides and pick.randrange(4):
        triples = [(*pair[:: pick.choice([1, -1])], abs(number())) for pair in pick.sample(pairs, pick.randint(1, len(pairs)))]
        triples += pick.choice([[], [], [triples[0]], [(1, nodes, 1)]])
        lines += ["FIXED_EDGE_POTENTIAL_SECTION", *(" ".join(map(str, triple)) for triple in triples), "-1"]
    return lines


def family(pick: random.Random, nodes: int) -> list[list[int]]:
    """A lone set, a comb where there are nodes enough, or any sets; seldom a bad one."""
    order = pick.sample(range(1, nodes + 1), nodes)
    kind = pick.randrange(4)
    if kind == 0:
        sets = [order[: pick.randint(1, nodes - (pick.randrange(20) > 0))]]
    elif kind == 1 and nodes >= 6:
        half = nodes // 2
        sets = [order[:half], *([order[k], order[half + k]] for k in range(3))]
        if pick.randrange(8) == 0:
            sets.pop(pick.randrange(4))
    else:
        sets = [pick.sample(order, pick.randint(1, nodes)) for _ in range(pick.randint(1, 4))]
    if pick.randrange(25) == 0:
        sets[0].append(sets[0][0])
    return sets


def tree_lines(pick: random.Random, nodes: int) -> list[str]:
    """A certificate by branching."""
    size = pick.choice([0, 4, 10**6, 10**15])
    families = [family(pick, nodes) for _ in range(pick.randrange(3))]
    last = nodes + len(families)

    def leaf() -> str:
        pairs = []
        for _ in range(pick.randrange(5)):
            index = pick.randint(1, last + (pick.randrange(40) == 0))
            pairs.append(f"{index} {pick.randint(0 if index > nodes and pick.randrange(9) else -size, size)}")
        return " ".join(["0", *pairs, "-1"])

    def steps(depth: int) -> list[str]:
        if depth == 0:
            return [leaf()]
        pair = " ".join(map(str, pick.sample(range(1, nodes + 1), 2)))
        if families and pick.randrange(30) == 0:
            pair = f"{nodes + 1} {pick.randint(1, nodes)}"
        return [pair, *steps(pick.randrange(depth)), *steps(pick.randrange(depth))]

    lines = ["TYPE : BRANCHES", f"DIMENSION : {nodes}", *pick.choice([[], ["SCALE : 2"], ["SCALE : 1000"]])]
    if families:
        sets = [" ".join([*(" ".join(map(str, [*one, -1])) for one in sets), "-1"]) for sets in families]
        lines += ["COMB_SECTION", *sets, "-1"]
    return [*lines, "BRANCH_SECTION", *steps(pick.randrange(4))]


def plan_tree_lines(pick: random.Random, nodes: int, depths: int = 4) -> list[str]:
    """A certificate for routes from the depot 1, of less than so many branches one below the other; seldom a bad one."""
    size = pick.choice([0, 4, 100, 10**9, 10**15])
    families = [pick.sample(range(2, nodes + 1), pick.randint(1, nodes - 1)) for _ in range(pick.randrange(4))]
    last = nodes + len(families)

    def leaf() -> str:
        pairs = []
        for _ in range(pick.randrange(6)):
            index = pick.randint(1, last + (pick.randrange(60) == 0))
            most = min(size, 10**6) if index > nodes and pick.randrange(40) else size
            pairs.append(f"{index} {pick.randint(-most, most)}")
        if families and pick.randrange(25) == 0:  # multipliers at their limit, or past it
            pairs = [f"{last} {pick.choice([2, -2]) * 10**15}"] * pick.choice([150, 151])
        return " ".join(["0", *pairs, "-1"])

    def steps(depth: int) -> list[str]:
        if depth == 0 or not families:
            return [leaf()]
        branch = f"{pick.randint(nodes + 1, last)} {pick.randint(1, nodes)}"
        if pick.randrange(40) == 0:
            branch = pick.choice([f"{last + 1} 1", " ".join(map(str, pick.sample(range(1, nodes + 1), 2)))])
        return [branch, *steps(pick.randrange(depth)), *steps(pick.randrange(depth))]

    sets = [[nodes] for nodes in families]
    if sets and pick.randrange(20) == 0:
        pick.choice(sets)[0].append(pick.randint(1, nodes))
    if sets and pick.randrange(40) == 0:
        pick.choice(sets).append([nodes])
    unit = pick.choice([[], [], ["1"], ["2"], ["3"], ["5"], ["10"], ["41"], ["1000000000000"]])
    lines = ["TYPE : BRANCHES", f"DIMENSION : {nodes + (pick.randrange(40) == 0)}", *pick.choice([[], ["SCALE : 2"], ["SCALE : 7"]])]
    lines += [f"LOAD_UNIT : {word}" for word in unit]
    if families:
        listed = [" ".join([*(" ".join(map(str, [*one, -1])) for one in family), "-1"]) for family in sets]
        lines += ["COMB_SECTION", *listed, "-1"]
    return [*lines, "BRANCH_SECTION", *steps(pick.randrange(depths))]


def certificate(pick: random.Random, kind: str, nodes: int, pairs: list) -> tuple[str, bytes]:
    """A certificate and its kind; now and then one of the other kind."""
    word = pick.choice(["potentials", "branches", "branches"])
    if kind == "CVRP" and pick.randrange(15):
        return "branches", joined(*plan_tree_lines(pick, nodes))
    lines = potential_lines(pick, kind, nodes, pairs) if (word == "potentials") != (pick.randrange(30) == 0) else tree_lines(pick, nodes)
    return word, joined(*lines)


def problem(pick: random.Random, kinds: list[str], nodes: int) -> tuple[str, list[list[int]], list, list[str]]:
    """An instance: its TYPE, a solution, its fixed pairs and its lines."""
    kind = pick.choice(kinds)
    tour = pick.sample(range(1, nodes + 1), nodes)
    lines, pairs, tours = instance_lines(pick, kind, nodes), [], [tour]
    if kind == "CVRP":
        tours = [[]]
        for node in (node for node in tour if node != 1):
            tours.append([]) if pick.randrange(3) == 0 else None
            tours[-1].append(node)
    if pick.randrange(3) == 0 and nodes > 2 and (kind != "CVRP" or pick.randrange(6) == 0):
        pairs, more = fixed_lines(pick, tour)
        lines += more
    return kind, tours, pairs, lines


def checks(pick: random.Random, number: int) -> Case:
    """A check or a bound, with a certificate or a claimed length."""
    nodes = pick.choice([1, 2, 3, 4, 5, 6, 7, 8, 9, 12])
    kind, tours, pairs, lines = problem(pick, ["TSP", "TSP", "ATSP", "CVRP"], nodes)
    solution = joined(*tour_lines(pick, tours, nodes))
    if kind == "CVRP" and pick.randrange(3) == 0 or pick.randrange(4) == 0 or nodes < 2:
        claim = pick.choice([b"", b"", str(pick.randint(-5, 99)).encode()])
        return Case("check", (joined(*lines), solution), claim=claim)
    word, text = certificate(pick, kind, nodes, pairs)
    if pick.randrange(3) == 0:
        return Case("bound", (joined(*lines), text), kind=word)
    return Case("check", (joined(*lines), solution, text), kind=word)


def comparisons(pick: random.Random, number: int) -> Case:
    """A comparison of solutions, some with faults."""
    nodes = pick.choice([2, 3, 4, 5, 6, 7, 8])
    kind, tours, pairs, lines = problem(pick, ["TSP", "TSP", "ATSP", "CVRP"], nodes)
    solutions = []
    for _ in range(pick.randint(1, 4)):
        other = [pick.sample(tour, len(tour)) for tour in tours] if pick.randrange(2) and not pairs else tours
        text = joined(*tour_lines(pick, other, nodes))
        solutions.append(broken(pick, text) if pick.randrange(6) == 0 else text)
    if kind == "CVRP" and pick.randrange(3) == 0 or pick.randrange(3) == 0:
        return Case("compare", (joined(*lines), *solutions))
    word, text = certificate(pick, kind, nodes, pairs)
    return Case("compare", (joined(*lines), *solutions, text), kind=word)


def tours(pick: random.Random, number: int) -> Case:
    """Tours of about 32 and 64 nodes, with a fault or none."""
    nodes = choice_of(number, [31, 32, 33, 34, 63, 64, 65, 66])[0]
    tour = pick.sample(range(1, nodes + 1), nodes)
    lines = point_lines(pick, "TSP", nodes) if pick.randrange(3) else matrix_lines(pick, "TSP", nodes, 10**9)
    if pick.randrange(3) == 0:
        lines += fixed_lines(pick, tour)[1]
    return Case("check", (joined(*lines), joined(*tour_lines(pick, [tour], nodes))))


def matrices(pick: random.Random, number: int) -> Case:
    """Matrices about as wide as the blocks of the code, of long numbers with signs."""
    nodes, digits, layout = choice_of(number, [63, 64, 65, 127, 128, 129, 130], [8, 9], ["", *LAYOUTS])
    lines = matrix_lines(pick, pick.choice(["TSP", "TSP", "ATSP"]), nodes, 10**digits - 1, uneven=3)
    if pick.randrange(3) == 0:
        row = pick.randrange(5, len(lines))
        lines[row] += pick.choice([" 1", " -", " +7", " 1x"])
    return Case("convert" if layout or pick.randrange(2) else "show", (joined(*lines),), layout=layout)


def wide_plans(pick: random.Random, number: int) -> Case:
    """A bound of routes for more customers than plans can be tried of."""
    nodes = choice_of(number, [15, 20, 25, 30])[0]
    lines = point_lines(pick, "CVRP", nodes) if pick.randrange(2) else matrix_lines(pick, "CVRP", nodes, 99, 1)
    demands = [f"{node} {0 if node == 1 else pick.randint(1, 9)}" for node in range(1, nodes + 1)]
    lines += [f"CAPACITY : {pick.randint(9, 20)}", "DEMAND_SECTION", *demands, "DEPOT_SECTION", "1 -1"]
    return Case("bound", (joined(*lines), joined(*plan_tree_lines(pick, nodes, 2))), kind="branches")


# ---- texts that were whole


def broken(pick: random.Random, text: bytes) -> bytes:
    """A text with one change: of a byte, a word or a line."""
    lines = text.split(b"\n")
    how, at = pick.randrange(8), pick.randrange(len(lines))
    if how < 3:
        words = lines[at].split(b" ")
        word = pick.randrange(len(words))
        words[word] = [pick.choice(PLACED).encode("latin-1"), b"", number_word(pick).encode()][how]
        lines[at] = b" ".join(words)
    elif how == 3:
        del lines[at]
    elif how == 4:
        lines.insert(pick.randrange(len(lines)), lines[at])
    elif how == 5:
        other = pick.randrange(len(lines))
        lines[at], lines[other] = lines[other], lines[at]
    else:
        place = pick.randrange(len(text) + 1)
        byte = bytes([pick.choice([0, 9, 10, 13, 32, 58, 45, 43, 46, 48, 101, 127, 233, pick.randrange(256)])])
        return text[:place] + byte + text[place + (how == 6) :]
    return b"\n".join(lines)


def shown_or_converted(pick: random.Random, text: bytes) -> Case:
    """A run on one file, in another layout at times."""
    layout = pick.choice(LAYOUTS) if pick.randrange(4) == 0 else ""
    return Case("convert" if layout else pick.choice(["show", "convert"]), (text,), layout=layout)


SMALL = sorted(path for path in EXAMPLES.iterdir() if path.suffix in (".tsp", ".atsp", ".vrp", ".tour", ".potentials", ".branches") and path.stat().st_size < 1_500)


def mutated(pick: random.Random, number: int) -> Case:
    """An example with a few changes."""
    text = choice_of(number, SMALL)[0].read_bytes()
    for _ in range(pick.choice([1, 1, 1, 2, 3])):
        text = broken(pick, text)
    return shown_or_converted(pick, text)


def laid_out(pick: random.Random, number: int) -> Case:
    """A whole file in an odd layout: other orders, blanks, ends of lines, unknown keywords; broken at times."""
    kind = choice_of(number, TYPES)[0]
    nodes = pick.choice([1, 2, 3, 4, 6])
    lines = instance_lines(pick, kind, nodes) if kind in ("TSP", "ATSP", "CVRP") else whole_lines(kind)
    words = [pick.choice([" ", "  ", "\t", " \x0c", " " if line[:1].isalpha() else "\n"]).join(line.split(" ")) for line in lines]
    extra = [pick.choice(["COMMENT : a  b ", "NAME:x", "FOO : 1", "BAR :", "  \t", "NODE_COORD_TYPE : NO_COORDS", "DISPLAY_DATA_TYPE: NO_DISPLAY"]) for _ in range(pick.randrange(4))]
    ends = pick.choice(["\n", "\r\n", " \n", "\n\n"])
    text = ends.join([*extra, *words, pick.choice(["EOF", "", "EOF\nx"])]).encode("latin-1")
    text = broken(pick, text) if pick.randrange(3) == 0 else text
    return shown_or_converted(pick, text)


PIECES = [(path, offset) for path in SMALL[:16] for offset in range(path.stat().st_size + 1)]


def pieces(pick: random.Random, number: int) -> Case:
    """An example behind blanks, so that the first piece of 4,096 bytes ends at a byte of it."""
    path, offset = choice_of(number, PIECES)[0]
    text = path.read_bytes()
    before = 4_096 - offset
    blanks = b" " * (before - 1) + b"\n" if pick.randrange(2) else b"\n" * before
    return Case("show" if pick.randrange(2) else "convert", (blanks + text,))


Generator = Callable[[random.Random, int], Case]
# How often each comes, of all cases.
GENERATORS: list[tuple[Generator, int]] = [
    (word_line, 12), (place, 14), (end, 8), (numbers, 10), (distances, 12), (checks, 20), (comparisons, 7), (tours, 2),
    (mutated, 8), (laid_out, 6), (pieces, 5),
]
ROUND = [make for make, often in GENERATORS for _ in range(often)]
SELDOM = 400  # one case in as many is a wide matrix, and one a bound of many routes


def case_of(seed: int, number: int) -> tuple[str, Case]:
    """The case of a number, and the name of what made it."""
    pick = random.Random(f"{seed} {number}")
    if number % SELDOM == SELDOM - 1:
        make, turn = matrices, number // SELDOM
    elif number % SELDOM == SELDOM // 2 - 1:
        make, turn = wide_plans, number // SELDOM
    else:
        rounds, place_in_round = divmod(number, len(ROUND))
        order = random.Random(f"order {seed} {rounds}").sample(ROUND, len(ROUND))
        make = order[place_in_round]
        turn = rounds * ROUND.count(make) + order[:place_in_round].count(make)
    return make.__name__, make(pick, turn)
