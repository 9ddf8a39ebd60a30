#!/usr/bin/env python3
"""Tests of tsp-certify for a TSP or an ATSP: tours, bounds and gaps. cases.py CASE TSP_CERTIFY TSP; support.py says more."""

import random
import subprocess
from itertools import permutations
from math import dist
from pathlib import Path

from support import CERTIFY, PATIENCE, POINTS, SPACE, TSP, certify, events, judged, need, need_bounded, need_optimal, need_same_bytes
from support import run, write, write_arcs, write_forms, write_layouts, write_matrix, write_points, write_small, write_tour


def weights():
    for kind in POINTS + SPACE:
        for nodes, places in ((10, 9), (35, 3), (60, 0)):
            write_points("a.tsp", kind, nodes, random.Random(f"{kind} {nodes}"), places=places)
            need_optimal("a.tsp")


def fixed():
    chance = random.Random(5)
    for nodes in (10, 30, 50):
        order = chance.sample(range(1, nodes + 1), nodes)
        pairs = [f"{a} {b}" for a, b in zip(order[: nodes // 2 : 3], order[1 : nodes // 2 : 3])]
        write_points("a.tsp", "EUC_2D", nodes, chance, "FIXED_EDGES_SECTION", *pairs, pairs[0], "-1")
        need_optimal("a.tsp")
    every = [f"{a} {a % 12 + 1}" for a in range(1, 13)]
    write_points("a.tsp", "EUC_2D", 12, chance, "FIXED_EDGES_SECTION", *every, "-1")
    need_optimal("a.tsp")


def small():
    """Against all orders of the nodes."""
    for nodes in range(3, 10):
        least = write_small(nodes)
        need(need_optimal("a.tsp") == least, f"{nodes} nodes: another length than {least}")


def matrix():
    for _ in write_layouts(40):
        need_optimal("a.tsp")
    write_matrix("a.tsp", "UPPER_ROW", 20, random.Random(1), 7, 7)
    need_optimal("a.tsp")


def atsp_small():
    """Against all orders of the nodes, with and without fixed arcs."""
    for nodes in range(3, 10):
        chance = random.Random(nodes)
        order = chance.sample(range(nodes), nodes)
        for fixed in ([], list(zip(order, order[1:3])), list(zip(order, order[1:] + order[:1]))):
            pairs = [f"{a + 1} {b + 1}" for a, b in fixed]
            more = ["FIXED_EDGES_SECTION", *pairs, "-1"] if fixed else []
            matrix = write_arcs(nodes, lambda i, j: chance.randint(-50, 50), *more)
            tours = [(0, *rest) for rest in permutations(range(1, nodes))]
            arcs = [[(tour[k - 1], tour[k]) for k in range(nodes)] for tour in tours]
            least = min(sum(matrix[a][b] for a, b in tour) for tour in arcs if set(fixed) <= set(tour))
            need(need_optimal("a.atsp") == least, f"{nodes} nodes, fixed {fixed}: another length than {least}")


def atsp():
    chance = random.Random(21)
    for nodes, low, high in ((40, 1, 1000), (80, -(10**6), 10**6), (40, 0, 3), (30, 10**12 - 1000, 10**12), (25, 7, 7)):
        write_arcs(nodes, lambda i, j, low=low, high=high: chance.randint(low, high))
        need_optimal("a.atsp")
    points = [(chance.randint(0, 1000), chance.randint(0, 1000)) for _ in range(50)]
    write_arcs(50, lambda i, j: round(dist(points[i], points[j])) + chance.randint(0, 20))
    need_optimal("a.atsp")
    write_arcs(50, lambda i, j: abs(points[i][1] - points[j][0]), "FIXED_EDGES_SECTION", "1 2", "2 9", "40 30", "-1")
    need_optimal("a.atsp")
    write_points("points.atsp", "EUC_2D", 40, chance)  # the same both ways
    need_optimal("points.atsp")


def atsp_named_tour():
    """A bad tour that is named is made shorter; a reversed one is another tour."""
    chance = random.Random(22)
    write_arcs(40, lambda i, j: chance.randint(1, 1000))
    write_tour("bad.tour", range(1, 41))
    certify("a.atsp", "bad.tour", "-o", "out.branches", "--tour-out", "out.tour")
    need("optimal" in judged("a.atsp"), "not optimal")
    need(int(judged("a.atsp", "bad.tour")["gap"]) > 0, "no bound of the bad tour")
    need_same_bytes("a.atsp")


def random_points():
    chance = random.Random(77)
    for nodes in (10, 20, 40, 60, 100, 150):
        write_points("a.tsp", "EUC_2D", nodes, chance, side=10**6)
        need_optimal("a.tsp")
    write_points("a.tsp", "EUC_2D", 50, chance, side=3)  # many points at one place
    need_optimal("a.tsp")


def named_tour():
    """A bad tour that is named is made shorter, and without --tour-out it is bounded."""
    write_points("a.tsp", "EUC_2D", 40, random.Random(8))
    write_tour("bad.tour", range(1, 41))
    certify("a.tsp", "bad.tour", "-o", "out.branches", "--tour-out", "out.tour")
    report, bad = judged("a.tsp"), judged("a.tsp", "bad.tour")
    need("optimal" in report, f"not optimal: {report}")
    need(bad["bound"] == report["length"] and int(bad["gap"]) > 0, f"no bound of the bad tour: {bad}")
    said = certify("a.tsp", "bad.tour", "-o", "out.branches")
    need("found: out.branches.tour" in said, f"nothing is said of the shorter tour: {said}")
    need("optimal" in judged("a.tsp", "out.branches.tour"), "the tour beside the certificate isn't the shorter one")
    Path("out.branches.tour").write_text("kept")
    said = certify("a.tsp", "bad.tour", "-o", "out.branches")
    told = "out.branches.tour: this file is there" in said and "--tour-out says" in said
    need(told, f"nothing is said of the shorter tour that isn't written: {said}")
    need(Path("out.branches.tour").read_text() == "kept", "a file that no word names is overwritten")
    said = certify("a.tsp", "bad.tour", "-o", "x" * 255)  # with .tour the name is too long
    need("File name too long" in said and "this decides" in said, f"a tour that can't be kept ends the run: {said}")
    certify("a.tsp", "out.tour", "-o", "again.branches")
    need("optimal" in judged("a.tsp", "out.tour", "again.branches"), "the optimal tour isn't kept")


def forms():
    """A shortest tour is named in several forms: none that is read as another tour is the shortest."""
    write_points("a.tsp", "EUC_2D", 40, random.Random(8))
    need_optimal("a.tsp")
    names = write_forms([int(line) for line in Path("out.tour").read_text().splitlines() if line.isdigit()])
    for words in ([], ["--sparse"]):
        for name in names:
            said = certify("a.tsp", name, "-o", "named.branches", *words)
            need("shorter tour" not in said, f"{name}, {words}: another tour is read: {said}")
            need(f" check a.tsp {name} --form auto --branches named.branches" in said, f"another command: {said}")
    need("optimal" in judged("a.tsp", "named.json", "out.branches", "--form", "auto"), "named.json isn't the shortest tour")
    text = Path("a.tsp").read_text()
    for name, status in (("named.tour", 0), ("named.txt", 2)):  # an instance from a pipe is read once
        words = [CERTIFY, "-", name, "-o", "piped.branches", "--tsp", TSP]
        done = subprocess.run(words, input=text, capture_output=True, text=True, timeout=100 * PATIENCE)
        need(done.returncode == status, f"{name} of an instance from a pipe: {done.returncode} {done.stderr}")


def upper():
    """A bound that is asked for is reached."""
    write_points("a.tsp", "EUC_2D", 60, random.Random(9))
    length = need_optimal("a.tsp")
    certify("a.tsp", "out.tour", "-o", "out.branches", "--upper", str(length - 20))
    need(length - 20 <= int(judged("a.tsp")["bound"]) <= length, "the bound that was asked for isn't reached")


def sparse():
    """What instances of more than 5,000 points take, on small ones, against shortest tours."""
    for kind in POINTS + SPACE:
        write_points("a.tsp", kind, 60, random.Random(f"sparse {kind}"), places=2)
        bound = need_bounded("a.tsp", 0.97, "--sparse")
        need(bound <= need_optimal("a.tsp"), f"{kind}: a bound above the shortest tour")
    chance = random.Random(14)
    write_points("a.tsp", "EUC_2D", 9, chance)
    need_bounded("a.tsp", 0.9, "--sparse")
    order = chance.sample(range(1, 201), 200)
    pairs = [f"{a} {b}" for a, b in zip(order[:120:3], order[1:120:3])]
    write_points("a.tsp", "EUC_2D", 200, chance, "FIXED_EDGES_SECTION", *pairs, "-1", side=10**6)
    need_bounded("a.tsp", 0.97, "--sparse", "--seconds", "0")
    texts = []
    for threads in ("1", "4"):
        words = ["--sparse", "--seconds", "0", "--threads", threads, "--seed", "3", "--log", "out.log"]
        need_bounded("a.tsp", 0.97, *words)
        texts.append((Path("out.branches").read_bytes(), Path("out.tour").read_bytes()))
    need(texts[0] == texts[1], "the same seed gives other bytes")
    need(all(0 <= event["bound"] <= event["length"] for event in events()), "a bound is above, or none")
    Path("named.tour").write_bytes(texts[0][1])
    said = certify("a.tsp", "named.tour", "-o", "out.branches", "--sparse")
    need("bound" in judged("a.tsp", "named.tour"), f"no bound of a named tour: {said}")
    for side, rounded in ((0, False), (1, True), (1000, False)):
        write_points("a.tsp", "EUC_2D", 30, random.Random(1), side=side, places=3)
        said = certify("a.tsp", "-o", "out.branches", "--tour-out", "out.tour", "--sparse")
        need(rounded == ("rounded to whole" in said), f"side {side}: {said}")
        judged("a.tsp")


def rounding():
    """Points within a unit square have distances that are rounded away."""
    chance = random.Random(23)
    write_points("a.tsp", "EUC_2D", 12, chance, side=1, places=6)
    said = certify("a.tsp", "-o", "out.branches", "--tour-out", "out.tour")
    need("rounded to whole numbers" in said, f"nothing is said of the rounding: {said}")
    for name, lines in (("b.tsp", 3 * ["5 5"]), ("c.tsp", ["0 0", "0 2", "2 0"])):
        write(name, "EUC_2D", [3, "NODE_COORD_SECTION", *(f"{v} {line}" for v, line in enumerate(lines, 1))])
        said = certify(name, "-o", "out.branches", "--tour-out", "out.tour")
        need("rounded" not in said, f"{name}: the distances aren't rounded away: {said}")
    write_matrix("d.tsp", "FULL_MATRIX", 9, chance, 0, 1)
    need("rounded" not in certify("d.tsp", "-o", "out.branches", "--tour-out", "out.tour"), "a matrix isn't rounded")


CASES = [weights, fixed, small, matrix, atsp_small, atsp, atsp_named_tour, random_points, named_tour, forms, upper,
         sparse, rounding]

if __name__ == "__main__":
    run(CASES)
