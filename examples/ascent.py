#!/usr/bin/env python3
"""Shows how potentials come about: ascent.py INSTANCE [--upper L] > POTENTIALS

This is the method on a page, for instances with a few hundred nodes. `tsp-potentials` in `producer/` does the same in
C++ for up to 100,000 points, and finds a tour too.

- For a TSP, a potential is a number for a node, which is added to the weight of each of its edges. Every tour gets longer
  by twice the sum of all potentials. So the weight of a least 1-tree under the new weights, minus this sum, is a bound.
  Held and Karp (1970) raise the potential of a node with too many edges in the 1-tree, and lower it if there are too few.
- For an ATSP, potentials are duals of the assignment problem, found by the Hungarian method: numbers for leaving and for
  entering each node, which together are at most the weight of each arc. The sum of all of them is a bound.

Nothing here is proved, and you needn't trust it: `tsp bound INSTANCE --potentials POTENTIALS` judges the file. It needs
Python 3.9 or later.
"""
from __future__ import annotations

import argparse
import sys
from math import inf
from typing import Optional

from recheck import Faulty, costs_of, dimension_of, fields_of, refuse

SCALE = 100  # of the potentials; the weights are at this scale too
Rows = list[list[int]]


def nearest_neighbours(rows: Rows) -> int:
    """The length of the tour that always goes on to the nearest node."""
    tour, left = [0], set(range(1, len(rows)))
    while left:
        tour.append(min(left, key=rows[tour[-1]].__getitem__))
        left.remove(tour[-1])
    return sum(rows[i][j] for i, j in zip(tour, tour[1:] + tour[:1]))


def one_tree(rows: Rows, potentials: list[int]) -> tuple[int, list[int]]:
    """The bound that a least 1-tree gives, and how many of its edges each node has."""
    count = len(rows)
    degrees, weight = [2] + [0] * (count - 1), 2 * potentials[0]
    for node in sorted(range(1, count), key=lambda node: rows[0][node] + potentials[node])[:2]:
        degrees[node] = 1
        weight += rows[0][node] + potentials[node]
    # Prim's tree over the others: of each node outside its nearest one inside, and how near that is
    ends, near, last, outside = [0] * count, [inf] * count, 1, list(range(2, count))
    while outside:
        row, own = rows[last], potentials[last]
        for node in outside:
            way = row[node] + own + potentials[node]
            if way < near[node]:
                ends[node], near[node] = last, way
        last = min(outside, key=near.__getitem__)
        outside.remove(last)
        degrees[last] += 1
        degrees[ends[last]] += 1
        weight += int(near[last])
    return weight - 2 * sum(potentials), degrees


def ascend(rows: Rows, upper: Optional[int]) -> tuple[int, list[int]]:
    """What no tour is shorter than, and the potentials of the nodes that show it."""
    upper = nearest_neighbours(rows) if upper is None else SCALE * upper
    potentials = [0] * len(rows)
    best, reach = (-sys.maxsize, potentials), 2 * (upper - one_tree(rows, potentials)[0])
    for step in range(max(200, min(500, 250_000 // len(rows)))):
        bound, degrees = one_tree(rows, potentials)
        best = max(best, (bound, potentials))
        squares = sum((degree - 2) ** 2 for degree in degrees)
        if squares == 0 or best[0] > upper - SCALE:
            break  # the 1-tree is a tour, or the bound rounded up is the length of one
        size = reach * 0.97**step / squares
        potentials = [old + round(size * (degree - 2)) for old, degree in zip(potentials, degrees)]
    return best


def assign(rows: Rows) -> tuple[int, list[int], list[int]]:
    """What no tour is shorter than, and the duals of the rows and columns that show it."""
    count = len(rows)
    u, v = [0] * count, [0] * (count + 1)  # one column more, to start at
    row_of: list[Optional[int]] = [None] * (count + 1)
    for start in range(count):
        # the shortest ways to the columns, up to one that no row has; no node goes to itself
        column, row_of[count] = count, start
        ends, far, outside = [count] * count, [inf] * count + [0], set(range(count))
        while (row := row_of[column]) is not None:
            for other in outside - {row}:
                way = far[column] + rows[row][other] - u[row] - v[other]
                if way < far[other]:
                    ends[other], far[other] = column, way
            column = min(outside, key=far.__getitem__)
            outside.remove(column)
        for inside in set(range(count + 1)) - outside - {column}:
            u[row_of[inside]] += far[column] - far[inside]
            v[inside] -= far[column] - far[inside]
        while column != count:
            row_of[column], column = row_of[ends[column]], ends[column]
    return sum(u) + sum(v[:count]), u, v[:count]


def main() -> None:
    words = argparse.ArgumentParser(description="Finds potentials of a TSP or an ATSP, for tsp check.")
    words.add_argument("instance")
    words.add_argument("--upper", type=int, metavar="L", help="the length of a tour, the shorter the better")
    given = words.parse_args()
    fields = fields_of(given.instance)
    kind = (fields["TYPE"] or ["none"])[0]
    if kind not in ("TSP", "ATSP"):
        raise Faulty(f"{given.instance}: a file of TYPE {kind} has no potentials: name an instance of TYPE TSP or ATSP")
    count = dimension_of(fields)
    if count < 3:
        raise Faulty(f"{given.instance}: there are no tours of fewer than three nodes")
    costs = costs_of(fields, count)
    rows = [[SCALE * cost for cost in costs.row(node)[1:]] for node in range(1, count + 1)]
    if kind == "ATSP":
        bound, u, v = assign(rows)
        sections = {"ROW": u, "COLUMN": v}
    else:
        bound, potentials = ascend(rows, given.upper)
        sections = {"NODE": potentials}
    print(f"TYPE : POTENTIALS\nCOMMENT : Bound = {-(-bound // SCALE)}\nDIMENSION : {count}\nSCALE : {SCALE}")
    for name, numbers in sections.items():
        print(f"{name}_POTENTIAL_SECTION")
        print("\n".join(f"{node} {number}" for node, number in enumerate(numbers, 1)))
    print("EOF")


if __name__ == "__main__":
    try:
        main()
    except OSError as fault:
        refuse(f"{fault.filename}: {fault.strerror}")
    except Faulty as fault:
        refuse(fault)
