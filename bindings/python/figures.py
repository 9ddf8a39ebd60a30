#!/usr/bin/env python3
"""Prints how long the calls take: YOKECAIRN_LIBRARY=PATH python3 figures.py

It is run by hand, where the speed of the package is in question; no suite of ./check does. Its figures are on no page. The
instances are made up. Each figure is the best of three runs, in seconds of the clock and of the processors.
"""

import random
import resource
import time

import yokecairn

PAIRS = 100_000


def points(count, chance):
    """A text with this many points in a square."""
    nodes = "".join(
        f"{node} {chance.randint(0, 10**6)} {chance.randint(0, 10**6)}\n" for node in range(1, count + 1)
    )
    head = f"TYPE : TSP\nDIMENSION : {count}\nEDGE_WEIGHT_TYPE : EUC_2D\nNODE_COORD_SECTION\n"
    return (head + nodes + "EOF\n").encode()


def clock(what, each, call, runs=3):
    """Prints the best times of some runs, and the most memory so far."""
    clock, work = [], []
    for _ in range(runs):
        start, began = time.perf_counter(), time.process_time()
        call()
        clock.append(time.perf_counter() - start)
        work.append(time.process_time() - began)
    most = resource.getrusage(resource.RUSAGE_SELF).ru_maxrss // 1024
    one = min(work) / each * 1e6
    print(f"{what}: {min(clock):.3f} s, {min(work):.3f} s of work, {one:.2f} µs each, {most} MB", flush=True)


def main():
    chance = random.Random(1)
    large, middle, small = (points(count, chance) for count in (100_000, 5_000, 80))
    clock("parse of 100,000 points", 100_000, lambda: yokecairn.parse(large))
    problem = yokecairn.parse(large)
    clock("their counts", 100_000, problem.counts)
    clock("parse and node_coords of them, exact", 100_000, lambda: yokecairn.parse(large).node_coords)
    clock("the same as floats", 100_000, lambda: yokecairn.parse(large, floats=True).node_coords)
    tour = list(problem.get_nodes())
    clock("trace_tours of one tour of them", 100_000, lambda: problem.trace_tours([tour]))
    clock("check of a tour of them", 100_000, lambda: yokecairn.check(problem, tour))
    problem = yokecairn.parse(small)
    pairs = [(chance.randint(1, 80), chance.randint(1, 80)) for _ in range(PAIRS)]
    clock("get_weight", PAIRS, lambda: [problem.get_weight(i, j) for i, j in pairs])
    clock("weights", PAIRS, lambda: problem.weights(pairs))
    tours = [chance.sample(range(1, 81), 80) for _ in range(10_000)]
    clock("trace_tours of 10,000 tours of 80 nodes", 800_000, lambda: problem.trace_tours(tours))
    problem = yokecairn.parse(middle)
    clock("matrix of 5,000 points", 25_000_000, problem.matrix)
    costs = problem.matrix().cast("B").cast("q")
    rows = "\n".join(" ".join(map(str, costs[5_000 * i : 5_000 * (i + 1)])) for i in range(5_000))
    costs.release()
    text = (
        "TYPE : TSP\nDIMENSION : 5000\nEDGE_WEIGHT_TYPE : EXPLICIT\nEDGE_WEIGHT_FORMAT : FULL_MATRIX\n"
        f"EDGE_WEIGHT_SECTION\n{rows}\nEOF\n"
    ).encode()
    print(f"({len(text) // 10**6} MB of text)")
    clock("parse of a matrix of 5,000 nodes", 25_000_000, lambda: yokecairn.parse(text))
    explicit = yokecairn.parse(text)
    clock("its matrix", 25_000_000, lambda: explicit.relayout("FULL_MATRIX").matrix())
    jobs = [(large, tour)] * 16
    for workers in (1, 2, 4):
        clock(f"16 checks of 100,000 points, {workers} threads", 16, lambda: yokecairn.check_many(jobs, workers), 1)


if __name__ == "__main__":
    main()
