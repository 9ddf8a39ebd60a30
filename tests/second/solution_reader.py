"""A second reader of three forms of solutions, plain and slow, written from docs/guide.md and docs/format.md alone: routes
of CVRPLIB, lists of nodes, and the edges of a tour of Concorde. Nothing is known of the instance.

`read_solution` returns what a text says, or raises the reason for which it is refused. For tests/second/forms.
"""
from __future__ import annotations

import re
from dataclasses import dataclass, field
from fractions import Fraction

MOST_NODES = 100_000
MOST_LISTED = 1_000_000
MARKS = re.compile(rb"[\t\x0b\x0c\r ,;:\[\](){}\"]+")
NUMBER = re.compile(rb"([+-]?)(\d*)(?:\.(\d*))?(?:[eE]([+-]?\d+))?$")
BLANKS = b"\t\x0b\x0c\r "


class Refused(Exception):
    """A text isn't read, for a reason of docs/format.md."""


@dataclass
class Solution:
    """Tours by nodes from 1, and what is said of them."""

    tours: list[list[int]]
    comments: list[bytes] = field(default_factory=list)


def number_of(word: bytes) -> Fraction | None:
    """The number that a word spells, or none."""
    found = NUMBER.match(word)
    if not found or not (found[2] or found[3]) or len(word) > 64:
        return None
    power = int(found[4] or 0)
    if abs(power) > 99:
        return None
    whole = int((found[2] or b"") + (found[3] or b""))
    return (-1 if found[1] == b"-" else 1) * Fraction(whole) * Fraction(10) ** (power - len(found[3] or b""))


def node_of(word: bytes, most: int = MOST_NODES - 1) -> int:
    """The node that a word is, counted from 0."""
    if re.fullmatch(rb"[0-9]+", word):
        number: Fraction | None = Fraction(int(word))
    else:
        number = number_of(word)
    if number is None or number.denominator != 1:
        raise Refused("NotANode")
    if not 0 <= number <= most:
        raise Refused("OutOfRange")
    return int(number)


def lines_of(text: bytes) -> list[bytes]:
    """The lines without blanks at their ends, behind the mark of UTF-8."""
    return [line.strip(BLANKS) for line in text.removeprefix(b"\xef\xbb\xbf").split(b"\n")]


def words_of(line: bytes) -> list[bytes]:
    """The words between blanks and marks."""
    return [word for word in MARKS.split(line) if word]


def comments(cost: bytes | None, program: bytes) -> list[bytes]:
    """What is said of a solution: its cost, and how customers count."""
    said = [b"Cost " + cost] if cost is not None else []
    return said + ([b"Customer k of " + program + b" is node k + 1"] if program else [])


def solution(tours: list[list[int]], cost: bytes | None, program: bytes) -> Solution:
    """A solution, without its empty tours."""
    kept = [tour for tour in tours if tour]
    if not kept:
        raise Refused("NoNodes")
    if sum(map(len, kept)) > MOST_LISTED:
        raise Refused("TooManyNodes")
    return Solution(kept, comments(cost, program))


def without_depot(nodes: list[int], depot: int) -> list[int]:
    """A route without the depot at both of its ends; it stands nowhere else."""
    if len(nodes) > 1 and nodes[0] == nodes[-1] == depot:
        nodes = nodes[1:-1]
    if depot in nodes:
        raise Refused("NotANode")
    return nodes


def read_cvrplib(text: bytes) -> Solution:
    """Routes `Route #1: 1 3`, whose customer k is node k + 1, and a line `Cost N`."""
    tours, cost = [], None
    for line in lines_of(text):
        heads = list(re.finditer(rb"route", line, re.I))
        if heads and heads[0].start() == 0 and re.search(rb"[:\d]", line):
            ends = [head.start() for head in heads[1:]] + [len(line)]
            for head, end in zip(heads, ends):
                _, colon, rest = line[head.start() : end].partition(b":")
                if not colon:
                    raise Refused("UnknownLine")
                tours.append(without_depot([node_of(word) for word in words_of(rest)], 0))
        elif found := re.fullmatch(rb"cost[ \t:=]+(\S*)", line, re.I):
            cost = found[1] if number_of(found[1]) is not None else None
        elif re.search(rb"\d", line) and not line.startswith(b"#") and not re.match(rb"[A-Za-z].*[:=]", line):
            raise Refused("UnknownLine")
    return solution([[node + 1 for node in tour] for tour in tours], cost, b"CVRPLIB")


def read_list(text: bytes) -> Solution:
    """Nodes between blanks and marks, below a line without digits or without one. They count from 0 if one of them is 0,
    and else from 1. A closed list ends with its first node."""
    lines = [line for line in lines_of(text) if words_of(line) and not line.startswith(b"#")]
    if lines and not re.search(rb"\d", lines[0]):
        lines.pop(0)
    words = [word for line in lines for word in words_of(line)]
    nodes = [node_of(word, MOST_NODES) for word in words]
    if len(nodes) > 1 and nodes[0] == nodes[-1]:
        nodes.pop()
    start = 0 if 0 in nodes else 1
    if nodes and max(nodes) - start >= MOST_NODES:
        raise Refused("OutOfRange")
    return solution([[node - start + 1 for node in nodes]], None, b"")


def read_edges(text: bytes) -> Solution:
    """Edges below a line with their number, twice. What follows the two nodes of an edge is its weight."""
    lines = [words for line in lines_of(text) if (words := words_of(line))]
    if not lines or len(lines[0]) < 2 or lines[0][0] != lines[0][1]:
        raise Refused("NoForm")
    nodes = node_of(lines[0][0], MOST_NODES)
    near: dict[int, list[int]] = {}
    for count, words in enumerate(lines[1:], 1):
        if count > nodes:
            raise Refused("WrongCount")
        if len(words) < 2:
            raise Refused("NotANode")
        pair = [node_of(word, nodes - 1) for word in words[:2]]
        for node, other in (pair, pair[::-1]):
            if len(near.setdefault(node, [])) == 2:
                raise Refused("NotTwoEdges")
            near[node].append(other)
    if len(lines) != nodes + 1:
        raise Refused("WrongCount")
    tour, before = [0], -1
    while len(tour) <= nodes:
        ahead = near[tour[-1]]
        after = ahead[1] if before == ahead[0] and len(tour) > 1 else ahead[0]
        before = tour[-1]
        if after == 0:
            break
        tour.append(after)
    if len(tour) != nodes:
        raise Refused("SeveralCycles")
    return solution([[node + 1 for node in tour]], None, b"")


READERS = {"cvrplib": read_cvrplib, "concorde-edges": read_edges, "list": read_list}


def read_solution(form: str, text: bytes) -> Solution:
    """What a text of a form says."""
    return READERS[form](text)
