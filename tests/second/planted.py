"""Bugs planted in copies of the second reader and of examples/recheck.py, one at a time. The cases of a seed have to show
each of them.

The program agrees with the two on these cases. So a bug that they show is one that they would show in the program.
`tests/second/run --planted` runs them, by hand.
"""
from __future__ import annotations

import sys
import types
from collections.abc import Callable
from pathlib import Path

from generate import Case, case_of
from runner import Counts

MOST = 40_000  # cases for a bug
HERE = Path(__file__).resolve().parent
MODULES = {name: HERE / f"{name}.py" for name in ("reader", "writer", "judge")}
MODULES = {"recheck": HERE.parents[1] / "examples/recheck.py", **MODULES}

# The file of the bug, what is there, what is put in its place, and what that is.
BUGS = [
    ("reader", 'BLANKS = b"\\t\\x0b\\x0c\\r "', 'BLANKS = b"\\t\\x0c\\r "', "byte 11 is no blank"),
    ("reader", "if len(word) > 64:", "if len(word) > 65:", "a word may have 65 bytes"),
    ("reader", '    if exponent < -9:\n        raise Wrong("Number TooFine")\n    if exponent < 0:', "    if exponent < 0:", "a whole number is never too fine"),
    ("reader", "if abs(value) > FINE * FINE:", "if abs(value) > FINE * FINE + FINE // 2:", "a coordinate may be half a unit beyond the limit"),
    ("reader", "if not least <= value <= most or", "if not least <= value <= most + 1 or", "a range is too large by one"),
    ("reader", "if word != CLOSED_WORD:\n                raise Wrong(\"AfterEnd\")\n            return\n        if self.entry:",
     "if whole(word, -1, -1) != -1:\n                raise Wrong(\"AfterEnd\")\n            return\n        if self.entry:", "-1.0 is ignored after a list"),
    ("reader", "            if self.node in self.of:\n                raise Wrong(\"RepeatedNode\")\n", "", "a node may repeat"),
    ("reader", "if len(self.entry) == 2 and self.entry[0] == self.entry[1]:", "if False:", "a fixed pair may be one node twice"),
    ("reader", 'if len(self.weights) == self.nodes**2:', 'if len(self.weights) == self.nodes**2 and word != CLOSED_WORD:', "-1 is ignored after the weights"),
    ("reader", "self.ended = not self.in_family\n", "self.ended = not self.in_set\n", "the -1 after a comb ends the list of combs"),
    ("reader", "if pair[0] == pair[1]:", "if pair[0] == pair[1] == 1:", "a branch may be one node twice"),
    ("reader", "index = whole(word, -1, self.nodes + 20_000, but=0)", "index = whole(word, -1, self.nodes + 19_999, but=0)", "the largest index is refused"),
    ("reader", "self.begin(whole(word, 0, self.nodes + 10_000))", "self.begin(whole(word, 0, self.nodes + 9_999))", "no branch is on family 10,000"),
    ("reader", 'if value:\n            raise Wrong("SectionValue")\n        if "DIMENSION" not in', 'if "DIMENSION" not in', "the line of a section may have a value"),
    ("reader", 'if "DIMENSION" not in file.values and name != "TOUR_SECTION":', 'if "DIMENSION" not in file.values and name not in ("TOUR_SECTION", "DEPOT_SECTION"):', "depots may come before DIMENSION"),
    ("reader", "if not known and not has_colon:", "if not known and not has_colon and not value:", "an unknown keyword needs no colon before a value"),
    ("reader", "if len(name) + len(value) > 4_000:", "if len(value) > 4_000:", "the limit of kept bytes is the value's alone"),
    ("reader", '        if name in file.values:\n            raise Wrong("Repeated")\n        if not known', '        if name in file.values and name != "SCALE":\n            raise Wrong("Repeated")\n        if not known', "SCALE may repeat"),
    ("reader", '("CAPACITY", kind == "CVRP"),\n        ("EDGE_WEIGHT_SECTION"', '("EDGE_WEIGHT_SECTION"', "CAPACITY may be missing"),
    ("reader", 'if name in file.sections and not file.sections[name].is_whole():', 'if name in file.sections and name != "DISPLAY_DATA_SECTION" and not file.sections[name].is_whole():', "display data may be incomplete"),
    ("reader", 'if (listed or required) and values["EDGE_WEIGHT_FORMAT"] == "FUNCTION":', 'if required and values["EDGE_WEIGHT_FORMAT"] == "FUNCTION":', "weights may be listed for a FUNCTION"),
    ("reader", 'return has_diagonal if i == j else (i < j) == (half == "UPPER")', 'return has_diagonal if i == j else (i < j) == ((half == "UPPER") == by_row)', "upper columns are taken for lower ones"),
    ("writer", '.rstrip("0").rstrip(".")', '.rstrip(".")', "decimals keep their zeros"),
    ("recheck", 'if kind.startswith("MAN"):\n        return (2 * sum(gaps) + BILLION)', 'if kind.startswith("MAN"):\n        return (2 * sum(gaps) + BILLION - 1)', "halves are rounded down"),
    ("recheck", "return (isqrt(4 * square // unit) + 1) // 2  #", "return (isqrt(max(0, 4 * square - 1) // unit) + 1) // 2  #", "roots beside a half are rounded down"),
    ("recheck", 'if kind in ("ATT", "CEIL_2D"):', 'if kind == "CEIL_2D":', "ATT rounds to the nearest"),
    ("writer", "if costs(node, node):", "if costs(node, node) > 0:", "a diagonal below 0 may be lost"),
    ("recheck", "for place, node in enumerate(nodes, 1):\n        if node > count:", "for place, node in enumerate(nodes[1:], 2):\n        if node > count:", "the first node may be out of range"),
    ("recheck", "(i, j) not in used and (directed or (j, i) not in used):", "(i, j) not in used and (j, i) not in used:", "a fixed arc may be used in the other direction"),
    ("recheck", "if fleet.load(route) > fleet.capacity:", "if fleet.load(route) >= fleet.capacity + (number > 1):", "the first route may not be full"),
    ("recheck", "return -(-value // scale)", "return value // scale", "a bound is rounded down"),
    ("recheck", "if pair in pairs[: number - 1]:", "if number > 2 and pair == pairs[number - 2]:", "a multiplier may repeat after another"),
    ("recheck", "return 3 * len(sets) - 2 if", "return 3 * len(sets) - 1 if", "a comb gives back one more"),
    ("recheck", "return once and len(inside) < count", "return once", "a lone set may have every node"),
    ("recheck", "return (i, j) if directed else frozenset((i, j))", "return frozenset((i, j))", "an arc has no direction"),
    ("recheck", "min(m, default=0) < 0 or most", "min(m, default=0) < -1 or most", "a multiplier may be -1"),
    ("recheck", " and before.get(j, {i}) == {i}]", "]", "a taken arc lets others enter its end"),
    ("recheck", "range(1, count + 1))\n    branches", "range(1, count + 10_001))\n    branches", "a tour may be branched on by a family"),
    ("recheck", "min(max(1, -(-self.load(nodes) // self.capacity))", "min(max(1, self.load(nodes) // self.capacity)", "the need of a set is rounded down"),
    ("recheck", " or fleet.depot in comb[0]:", ":", "a family may have the depot"),
    ("recheck", "range(count + 1, count + len(sets) + 1))", "range(1, count + len(sets) + 1))", "routes may be branched on by a pair"),
    ("recheck", "sums = sum(map(abs, numbers[count + 1 :]))", "sums = sum(numbers[count + 1 :])", "multipliers below 0 have no limit"),
    ("recheck", "whole = [demand // unit for", "whole = [-(-demand // unit) for", "loads are rounded up"),
    ("recheck", "* (light + 1) + light", "* (light + 1)", "there is no room for loads of 0"),
    ("recheck", "onward = second if after == node else own", "onward = own", "a walk may go back at once"),
    ("recheck", "for node, rest in table[room].items())", "for node, rest in table[room].items() if rest[1] != self.depot)", "no walk has one customer"),
    ("recheck", "each = least - twice", "each = least - twice // 2", "the depot's potential is given back once"),
    ("recheck", "value = min(fleet.need(fleet.customers) * each, len(fleet.customers) * each)", "value = fleet.need(fleet.customers) * each", "the fewest routes are taken where each weighs less than 0"),
    ("recheck", "number * (a if number > 0 else b)", "number * a", "the low number of crossings is taken for a multiplier below 0"),
    ("recheck", "max(low[family], 2 * times + 2)", "max(low[family], 2 * times + 1)", "the second tree begins at 2t + 1 crossings"),
    ("recheck", "for node, rest in table[room].items()), default=None)", "for node, rest in table[room].items()), default=0)", "a leaf without a walk has a bound"),
]


def with_bug(name: str, old: str, new: str, wanted: str = "judge") -> types.ModuleType:
    """The judge, or another module, over a copy of the reader in which a text is another."""
    before = {module: sys.modules.get(module) for module in MODULES}
    try:
        for module, path in MODULES.items():
            text = path.read_text()
            if module == name:
                if text.count(old) != 1:
                    raise SystemExit(f"planted.py: {module}.py has {text.count(old)} times: {old}")
                text = text.replace(old, new)
            made = sys.modules[module] = types.ModuleType(module)
            made.__file__ = str(path)
            exec(compile(text, f"{module}.py with a bug", "exec"), made.__dict__)
        return sys.modules[wanted]
    finally:
        sys.modules.update({module: it for module, it in before.items() if it})


def shows(judge: types.ModuleType, wanted: Callable, case: Case, right: tuple) -> bool:
    """Whether a case tells a reader with a bug from the one without."""
    try:
        return wanted(case, judge) != right
    except Exception:  # (a crash is a difference too)
        return True


def tried(seed: int, wanted: Callable) -> Counts:
    """Sees that the cases of a seed show each bug."""
    counts, known = Counts(), []

    def right(number: int) -> tuple:
        if number == len(known):
            case = case_of(seed, number)[1]
            known.append((case, wanted(case)))
        return known[number]

    for name, old, new, told in BUGS:
        judge = with_bug(name, old, new)
        found = next((number for number in range(MOST) if shows(judge, wanted, *right(number))), None)
        counts.add(found is not None, f"no case up to {MOST} of seed {seed} shows this bug: {told}", told)
        if found is not None:
            print(f"case {found}: {told}", flush=True)
    return counts
