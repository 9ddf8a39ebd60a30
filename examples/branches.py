#!/usr/bin/env python3
"""Shows how a certificate of TYPE BRANCHES comes about: branches.py INSTANCE TOUR --branches OUT

This is the method on a page. `tsp-certify` in `producer/` does the same in C++ for larger instances, and finds the
tour too. Here you have to give a shortest tour, for a symmetric instance with at most about 80 nodes.

1. `Program`: a linear program gives each pair of nodes a value from 0 to 1. Each tour is a solution, so the
   optimum is at most the least length.
2. `lone_sets`, `combs`: add inequalities that each tour satisfies and the solution violates. A set of nodes is
   crossed at least twice, and a comb (a handle and an odd number k of teeth) at least 3k + 1 times.
3. `Search`: if the optimum stays below the length, branch on a pair. Each tour uses the pair, or doesn't.
4. `numbers_of`, `bound`: the duals of a leaf, rounded at a scale, become potentials of the nodes and multipliers
   of the combs. They change the weights, and the least 1-tree under the new weights gives a bound in whole numbers.

Nothing here is proved, and you needn't trust it: `tsp check INSTANCE TOUR --branches OUT` judges the file. It needs
Python 3.9 or later with scipy (apt-get install python3-scipy).
"""
from __future__ import annotations

import argparse
import os
import sys
from typing import NamedTuple

try:
    import numpy as np
    from scipy.optimize import linprog
    from scipy.sparse import csr_matrix, vstack
    from scipy.sparse.csgraph import connected_components
except ImportError as missing:
    sys.exit(f"branches: {sys.executable} has no {missing.name}: install python3-scipy and use /usr/bin/python3")

from recheck import Faulty, No, costs_of, dimension_of, ended, fields_of, tour_of, wholes

SCALE = 2520  # a multiple of many small numbers, so that many duals are whole at it
TINY = 1e-6
MISSED = 0.01  # a cut that is missed by less isn't taken
MARK = 4 * 10**15  # off the weight of a pair that has to be used, and onto that of one that may not
Case = dict[tuple[int, int], bool]  # which pairs are used, and which aren't


class Instance:
    """The weights between nodes, which count from 0 here, a tour, and the fixed pairs."""

    def __init__(self, path: str, tour_path: str) -> None:
        fields, solution = fields_of(path), fields_of(tour_path)
        if fields["TYPE"][0] != "TSP":
            sys.exit(f"branches: {path}: this page is for TYPE TSP, and producer/ for others")
        self.count = dimension_of(fields)
        costs = costs_of(fields, self.count)
        tour = [node - 1 for node in tour_of(fields, solution, costs, self.count)]
        self.weights = np.array([costs.row(node)[1:] for node in range(1, self.count + 1)], np.int64)
        self.length = int(self.weights[tour, np.roll(tour, -1)].sum())
        pairs = ended(wholes(fields, "FIXED_EDGES_SECTION"), 2)
        self.fixed: Case = {(min(i, j) - 1, max(i, j) - 1): True for i, j in pairs}


class Cut(NamedTuple):
    """Sets of nodes that each tour crosses at least this often, in all."""

    sets: tuple[frozenset[int], ...]
    least: int

    def crossings(self, i: np.ndarray, j: np.ndarray, count: int) -> np.ndarray:
        """How many of the sets have one of two nodes, for each pair."""
        total = np.zeros(len(i), np.int64)
        for nodes in self.sets:
            inside = np.zeros(count, bool)
            inside[list(nodes)] = True
            total += inside[i] != inside[j]
        return total


def lone(nodes: np.ndarray) -> Cut:
    """A set that each tour crosses twice, as its side without node 0."""
    inside = set(np.nonzero(nodes)[0].tolist())
    return Cut((frozenset(set(range(len(nodes))) - inside if 0 in inside else inside),), 2)


def lone_sets(values: np.ndarray) -> list[Cut]:
    """Sets that are crossed less than twice: parts that don't hang together, else by Stoer and Wagner."""
    count, label = connected_components(csr_matrix(values > TINY), directed=False)
    if count > 1:
        return [lone(label == part) for part in range(count)]
    weights, groups, found = values.copy(), np.eye(len(values), dtype=bool), []
    while len(weights) > 1:
        before, last = last_two(weights)
        if weights[last].sum() < 2 - MISSED:
            found.append(lone(groups[last]))
        groups[before] |= groups[last]  # the two become one
        weights[before] += weights[last]
        weights[:, before] = weights[before]
        weights[before, before] = 0
        groups = np.delete(groups, last, 0)
        weights = np.delete(np.delete(weights, last, 0), last, 1)
    return found


def last_two(weights: np.ndarray) -> tuple[int, int]:
    """The last two nodes, where the next one is always the most strongly joined to those before. Nothing
    that parts these two is crossed less than the last one alone."""
    near, order = weights[0].copy(), [0]
    while len(order) < len(weights):
        near[order] = -1
        order.append(int(near.argmax()))
        near = near + weights[order[-1]]
    return order[-2], order[-1]


def combs(values: np.ndarray) -> list[Cut]:
    """Combs whose teeth are single pairs. Handles are the parts of the graph of values within these limits."""
    found = []
    for low in (TINY, 0.1, 0.2, 0.3, 0.4):
        count, label = connected_components(csr_matrix((values > low) & (values < 1 - low)), directed=False)
        for part in range(count):
            handle = label == part
            teeth = teeth_of(handle, values)
            crossed = values[handle][:, ~handle].sum() + sum(4 - 2 * values[pair] for pair in teeth)
            if len(teeth) >= 3 and crossed < 3 * len(teeth) + 1 - MISSED:
                sets = (frozenset(np.nonzero(handle)[0].tolist()), *map(frozenset, teeth))
                found.append(Cut(sets, 3 * len(teeth) + 1))
    return found


def teeth_of(handle: np.ndarray, values: np.ndarray) -> list[tuple[int, int]]:
    """Disjoint pairs with one node in the handle, an odd number, the greatest values first."""
    pairs = [(float(values[i, j]), i, j) for i, j in zip(*np.nonzero(values > 0.5)) if handle[i] and not handle[j]]
    used: set[int] = set()
    teeth = []
    for _, i, j in sorted(pairs, reverse=True):
        if i not in used and j not in used:
            used |= {i, j}
            teeth.append((int(i), int(j)))
    return teeth if len(teeth) % 2 else teeth[:-1]


class Solution(NamedTuple):
    """The optimum, the value of each pair in both orders, and the duals of nodes and of cuts."""

    value: float
    values: np.ndarray
    node_duals: np.ndarray
    cut_duals: dict[Cut, float]


class Program:
    """The linear program over all pairs. It keeps the cuts from case to case."""

    def __init__(self, instance: Instance) -> None:
        self.instance = instance
        self.i, self.j = np.triu_indices(instance.count, 1)
        self.costs = instance.weights[self.i, self.j].astype(float)
        self.cuts: dict[Cut, csr_matrix] = {}  # with the row of each

    def add(self, cuts: list[Cut]) -> bool:
        """Adds cuts. Whether one is new."""
        fresh = [cut for cut in dict.fromkeys(cuts) if cut not in self.cuts]
        self.cuts |= {cut: csr_matrix(1.0 * cut.crossings(self.i, self.j, self.instance.count)) for cut in fresh}
        return bool(fresh)

    def solve(self, case: Case) -> Solution:
        """Each node has degree 2, and each cut is crossed as often as it has to be."""
        count, pairs = self.instance.count, np.arange(len(self.i))
        ones = np.ones(2 * len(pairs))
        degrees = csr_matrix((ones, (np.append(self.i, self.j), np.append(pairs, pairs))))
        limits = np.tile([0.0, 1.0], (len(pairs), 1))
        for (a, b), used in case.items():
            limits[(self.i == a) & (self.j == b)] = used
        above = (-vstack(list(self.cuts.values())), [-cut.least for cut in self.cuts]) if self.cuts else (None, None)
        answer = linprog(self.costs, *above, degrees, np.full(count, 2), limits, method="highs")
        if answer.status != 0:
            sys.exit("branches: a case has no solution at all: producer/ treats those")
        values = np.zeros((count, count))
        values[self.i, self.j] = answer.x
        duals = -answer.ineqlin.marginals if self.cuts else []
        return Solution(answer.fun, values + values.T, answer.eqlin.marginals, dict(zip(self.cuts, duals)))


class Numbers(NamedTuple):
    """The potential of each node, and the multipliers of combs, at the scale."""

    potentials: np.ndarray
    multipliers: dict[Cut, int]


def numbers_of(solution: Solution) -> Numbers:
    """Rounds the duals. That of a lone set without node 0 goes to the potentials of its nodes: a tree over the
    nodes 1.. has at most k - 1 edges among k of them, so that the rest of the cut needs no number."""
    potentials, multipliers = -solution.node_duals, {}
    for cut, dual in solution.cut_duals.items():
        if len(cut.sets) == 1:
            potentials[list(cut.sets[0])] -= dual
        elif round(dual * SCALE) > 0:
            multipliers[cut] = round(dual * SCALE)
    return Numbers(np.rint(potentials * SCALE).astype(np.int64), multipliers)


def bound(instance: Instance, numbers: Numbers, case: Case) -> int:
    """The bound of every tour that obeys a case, as docs/proof.md shows: a tour without node 0's two edges is a
    tree, a potential counts twice in each tour, and a tour crosses a comb's sets as often as it has to."""
    i, j = np.triu_indices(instance.count, 1)
    weights = SCALE * instance.weights[i, j] + numbers.potentials[i] + numbers.potentials[j]
    for cut, multiplier in numbers.multipliers.items():
        weights -= multiplier * cut.crossings(i, j, instance.count)
    marked = np.zeros((instance.count, instance.count), np.int64)
    marked[i, j] = marked[j, i] = weights
    for (a, b), used in case.items():
        marked[a, b] += -MARK if used else MARK
        marked[b, a] = marked[a, b]
    given = sum(multiplier * cut.least for cut, multiplier in numbers.multipliers.items())
    total = least_one_tree(marked) + MARK * sum(case.values()) - 2 * int(numbers.potentials.sum()) + given
    return -(-total // SCALE)


def least_one_tree(weights: np.ndarray) -> int:
    """The least weight of two edges at node 0 and a tree over the others."""
    total = int(np.sort(weights[0, 1:])[:2].sum())
    near, outside = weights[1].copy(), np.arange(len(weights)) > 1
    while outside.any():
        node = int(np.where(outside, near, np.iinfo(np.int64).max).argmin())
        total += int(near[node])
        outside[node] = False
        near = np.minimum(near, weights[node])
    return total


class Search:
    """Steps of the tree: a branch before the case that uses its pair, then the other. A leaf is its numbers."""

    def __init__(self, instance: Instance) -> None:
        self.instance, self.program = instance, Program(instance)
        self.steps: list[tuple[int, int] | Numbers] = []

    def explore(self, case: Case) -> None:
        """Adds the steps of a case."""
        solution = self.tighten(case)
        numbers = numbers_of(solution)
        if bound(self.instance, numbers, case) >= self.instance.length:
            self.steps.append(numbers)
            return
        parts = np.triu(np.minimum(solution.values, 1 - solution.values))
        if parts.max() < TINY:
            sys.exit("branches: there is a shorter tour: name a shortest one")
        i, j = map(int, np.unravel_index(parts.argmax(), parts.shape))
        self.steps.append((i, j))
        self.explore({**case, (i, j): True})
        self.explore({**case, (i, j): False})

    def tighten(self, case: Case) -> Solution:
        """Adds cuts until the length is reached or none is missed."""
        while True:
            solution = self.program.solve(case)
            if solution.value > self.instance.length - 1 + MISSED:
                return solution
            if not self.program.add(lone_sets(solution.values) or combs(solution.values)):
                return solution


def lines_of(instance: Instance, steps: list[tuple[int, int] | Numbers]) -> list[str]:
    """The lines of the file. A leaf lists where its numbers differ from those of the leaf before."""
    numbers = [step for step in steps if isinstance(step, Numbers)]
    cuts = list(dict.fromkeys(cut for each in numbers for cut in each.multipliers))
    lines = ["TYPE : BRANCHES", f"DIMENSION : {instance.count}", f"SCALE : {SCALE}", "COMB_SECTION"]
    for cut in cuts:
        lines += [" ".join([*(str(node + 1) for node in sorted(nodes)), "-1"]) for nodes in cut.sets] + ["-1"]
    lines += ["-1", "BRANCH_SECTION"]
    last = [0] * (instance.count + len(cuts))
    for step in steps:
        if isinstance(step, Numbers):
            here = [*step.potentials.tolist(), *(step.multipliers.get(cut, 0) for cut in cuts)]
            words = [f"{at} {now - old}" for at, (now, old) in enumerate(zip(here, last), 1) if now != old]
            lines.append(" ".join(["0", *words, "-1"]))
            last = here
        else:
            lines.append(f"{step[0] + 1} {step[1] + 1}")
    return [*lines, "EOF"]


def main() -> None:
    parser = argparse.ArgumentParser(description="Makes a certificate of TYPE BRANCHES, and shows how that is done")
    parser.add_argument("instance", help="a file of TYPE TSP")
    parser.add_argument("tour", help="a shortest tour of it")
    parser.add_argument("--branches", required=True, metavar="OUT", help="where the certificate goes")
    given = parser.parse_args()
    try:
        for path in (given.instance, given.tour):
            if os.path.exists(given.branches) and os.path.samefile(path, given.branches):
                parser.error(f"--branches would overwrite {path}, which is read: name another file")
        instance = Instance(given.instance, given.tour)
        search = Search(instance)
        search.explore(instance.fixed)
        with open(given.branches, "w") as file:
            print(*lines_of(instance, search.steps), sep="\n", file=file)
    except No as reason:
        sys.exit(f"branches: {given.tour} is no tour of {given.instance}: {reason}")
    except OSError as fault:
        sys.exit(f"branches: {fault.filename}: {fault.strerror}")
    except Faulty as reason:  # no instance
        sys.exit(f"branches: {reason}")


if __name__ == "__main__":
    main()
