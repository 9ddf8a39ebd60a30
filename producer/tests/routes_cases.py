#!/usr/bin/env python3
"""Tests of tsp-certify for routes. routes_cases.py CASE TSP_CERTIFY TSP; support.py says more.

examples/recheck.py, which shares no code with the program TSP or the producer, judges some of what is made too.
"""

import math
import random
import re
import signal
import subprocess
import sys
import time
from functools import cache
from itertools import combinations, permutations
from pathlib import Path

import support
from support import CERTIFY, PATIENCE, TSP, certify, events, need, need_joined, need_refused, need_within, run, write_points, write_tour

RECHECK = Path(__file__).resolve().parents[2] / "examples/recheck.py"
BY_PROGRAM, BY_RECHECK = [TSP, "check"], [sys.executable, RECHECK]
BOTH = ["-o", "out.branches", "--tour-out", "out.routes"]

RECTANGLE = {"points": [(0, 0), (3, 0), (3, 4), (0, 4)], "demands": [0, 4, 4, 4], "capacity": 8}


def write_vrp(name, demands, capacity, points=None, costs=None, depot=1):
    nodes = len(demands)
    lines = ["TYPE : CVRP", f"DIMENSION : {nodes}", f"CAPACITY : {capacity}"]
    if points:
        lines += ["EDGE_WEIGHT_TYPE : EUC_2D", "NODE_COORD_SECTION"]
        lines += [f"{v} {x} {y}" for v, (x, y) in enumerate(points, 1)]
    else:
        lines += ["EDGE_WEIGHT_TYPE : EXPLICIT", "EDGE_WEIGHT_FORMAT : FULL_MATRIX", "EDGE_WEIGHT_SECTION"]
        lines += [" ".join(map(str, row)) for row in costs]
    lines += ["DEMAND_SECTION", *(f"{v} {demand}" for v, demand in enumerate(demands, 1))]
    Path(name).write_text("\n".join([*lines, "DEPOT_SECTION", str(depot), "-1", "EOF"]) + "\n")


def write_uniform(name, nodes, chance, capacity=100, side=100):
    """As instances A of Augerat (1995): uniform points, demands from 1 to 30."""
    points = [(chance.randint(0, side), chance.randint(0, side)) for _ in range(nodes)]
    write_vrp(name, [0] + [chance.randint(1, 30) for _ in range(nodes - 1)], capacity, points)


def write_routes(text, name="out.routes"):
    Path(name).write_text(f"TYPE : TOUR\nTOUR_SECTION\n{text}\nEOF\n")


def write_certificate(nodes, families, tree, more="", name="out.branches"):
    sets = f"COMB_SECTION\n{families}\n" if families else ""
    Path(name).write_text(f"TYPE : BRANCHES\nDIMENSION : {nodes}\n{more}\n{sets}BRANCH_SECTION\n{tree}\nEOF\n")


def judged(instance, routes="out.routes", certificate="out.branches", judge=BY_PROGRAM):
    """The lines of the report as a dictionary."""
    words = [*judge, instance, routes, "--branches", certificate]
    lines = subprocess.run(words, capture_output=True, text=True, timeout=200 * PATIENCE).stdout.splitlines()
    need(lines and lines[-1] == "yes", f"{instance}: {lines}")
    return {line.partition(" ")[0]: line.partition(" ")[2] for line in lines}


def need_optimal(instance, *words, judge=BY_PROGRAM):
    said = certify(instance, *BOTH, *words)
    report = judged(instance, judge=judge)
    need("optimal" in report, f"{instance}: not optimal: {report} {said}")
    need(f"bound {report['bound']} as reckoned" in said, f"{instance}: another bound was reckoned: {said}")
    return int(report["length"])


def least_plan(costs, demands, capacity, depot):
    """The length of a shortest plan: of each set of customers by all orders, then by the sets of routes."""
    customers = [v for v in range(len(demands)) if v != depot]
    route = {}
    for size in range(1, len(customers) + 1):
        for chosen in combinations(customers, size):
            if sum(demands[v] for v in chosen) <= capacity:
                stops = ([depot, *order, depot] for order in permutations(chosen))
                route[frozenset(chosen)] = min(sum(costs[a][b] for a, b in zip(stop, stop[1:])) for stop in stops)

    @cache
    def least(rest):
        if not rest:
            return 0
        first = min(rest)
        return min(route[own] + least(rest - own) for own in route if first in own and own <= rest)

    return least(frozenset(customers))


def small():
    """Against all plans: of one customer on, with costs of each direction, costs below 0, demands 0, any depot."""
    for nodes in range(2, 8):
        chance = random.Random(nodes)
        for low, high in ((0, 30), (-15, 30), (5, 5)):
            costs = [[chance.randint(low, high) if i != j else 0 for j in range(nodes)] for i in range(nodes)]
            depot, capacity = chance.randrange(nodes), chance.choice([5, 8, 10])
            demands = [0 if v == depot else chance.randint(0, 5) for v in range(nodes)]
            write_vrp("a.vrp", demands, capacity, costs=costs, depot=depot + 1)
            least = least_plan(costs, demands, capacity, depot)
            need(need_optimal("a.vrp") == least, f"{nodes} nodes: another length than {least}")


def memory():
    """Runs with a memory, against all plans and of a tree, by the program and by recheck.py."""
    for nodes in range(2, 8):
        chance = random.Random(nodes)
        costs = [[chance.randint(-5, 30) if i != j else 0 for j in range(nodes)] for i in range(nodes)]
        depot = chance.randrange(nodes)
        demands = [0 if v == depot else chance.randint(0, 5) for v in range(nodes)]
        write_vrp("a.vrp", demands, 8, costs=costs, depot=depot + 1)
        least = least_plan(costs, demands, 8, depot)
        need(need_optimal("a.vrp", "--memory") == least, f"{nodes} nodes: another length than {least}")
    write_uniform("a.vrp", 30, random.Random(9))
    texts = []
    for count in ("1", "4"):
        need_optimal("a.vrp", "--memory", "--threads", count, "--seconds", "0", judge=BY_RECHECK)
        texts.append(Path("out.branches").read_bytes())
    need(texts[0] == texts[1], "another number of threads gives other bytes")
    need(b"MEMORY_SECTION" in texts[0], "the file has no memory")
    certify("a.vrp", *BOTH, "--seconds", "0")
    text = Path("out.branches").read_text()
    need("MEMORY" not in text and "SUBSET" not in text, "a file has a memory that wasn't asked for")
    need("no --tree" in certify("a.vrp", *BOTH, "--memory", "--split", "3", status=2), "a tree with a memory is split")


def memory_limits():
    """A limit of time leaves a gap, and the bound is the reckoned one."""
    write_uniform("a.vrp", 60, random.Random(10), side=1000)
    said = certify("a.vrp", *BOTH, "--memory", "--seconds", "3")
    report = judged("a.vrp", judge=BY_RECHECK)
    need(f"bound {report['bound']} as reckoned" in said, f"another bound was reckoned: {said} {report}")


def states_suffice(most):
    """Whether recheck.py finds a bound of a.vrp if a leaf may keep so many states."""
    sys.path.append(str(RECHECK.parent))
    import recheck

    instance, certificate = recheck.fields_of("a.vrp"), recheck.fields_of("out.branches")
    nodes = recheck.dimension_of(instance)
    recheck.MOST_STATES = most
    try:
        list(recheck.route_bounds(instance, certificate, recheck.costs_of(instance, nodes), nodes))
    except recheck.No as reason:
        need("TooManyStates" in str(reason), f"another reason: {reason}")
        return False
    return True


def memory_states():
    """States are counted as recheck.py counts them. Where a leaf has too many, rows or customers are forgotten."""
    write_uniform("a.vrp", 20, random.Random(9))
    words = ["a.vrp", *BOTH, "--memory", "--seconds", "0", "--threads", "1"]
    certify(*words, "--log", "out.log")
    states = events()[-1]["states"]
    need(states_suffice(states) and not states_suffice(states - 1), f"the states of the largest leaf aren't {states}")
    most = states * 9 // 10
    said = certify(*words, "--states", str(most))
    need(states_suffice(most), f"a leaf keeps more than {most} states, where {states} are most of one without a limit")
    need(f"bound {judged('a.vrp')['bound']} as reckoned" in said, f"another bound was reckoned: {said}")


def memory_full():
    """A file too full for the memories of all leaves is built again with the root's memory, and the better one stays."""
    write_uniform("a.vrp", 26, random.Random(2), capacity=40, side=1000)
    words = ["a.vrp", *BOTH, "--memory", "--seconds", "0", "--threads", "1", "--log", "out.log"]
    whole = ends_of(words)
    need(len(whole) == 1, "a file with room for all memories is built twice")
    states = whole[0]["states"]
    bounds = [end["bound"] for end in ends_of([*words, "--states", str(states * 7 // 8)])]
    need(len(bounds) == 2, f"a full file isn't built again: {bounds}")
    need(int(judged("a.vrp")["bound"]) == max(bounds) > bounds[0], f"the better file doesn't stay: {bounds}")


def ends_of(words):
    """The last events of the trees that a run builds, of which its log tells."""
    certify(*words)
    return [event for event in events() if event["event"] == "end"]


def optimal():
    """A tree of points, and costs of each direction."""
    write_uniform("a.vrp", 25, random.Random(4))
    need_optimal("a.vrp")
    chance = random.Random(5)
    costs = [[chance.randint(1, 10**6) if i != j else 0 for j in range(14)] for i in range(14)]
    write_vrp("a.vrp", [0] + [chance.randint(1, 9) for _ in range(13)], 20, costs=costs)
    need_optimal("a.vrp")


def large_numbers():
    """Costs and a capacity at the limits of the format. Loads are then in a unit."""
    chance = random.Random(6)
    points = [(chance.randint(0, 10**3), chance.randint(0, 10**3)) for _ in range(9)]
    write_vrp("a.vrp", [0] + [chance.randint(1, 10**9) for _ in range(8)], 3 * 10**9, points)
    need_optimal("a.vrp")
    unit = re.search(r"^LOAD_UNIT : (\d+)$", Path("out.branches").read_text(), re.MULTILINE)
    need(unit and int(unit[1]) > 1, "loads are in no unit")
    for low, high in ((10**12 - 1000, 10**12), (-(10**12), 10**12)):
        costs = [[chance.randint(low, high) if i != j else 0 for j in range(7)] for i in range(7)]
        write_vrp("a.vrp", [0] + [chance.randint(1, 9) for _ in range(6)], 12, costs=costs)
        need_optimal("a.vrp")


def plan():
    """A bad plan that is named is made shorter, and without --tour-out it is bounded, and the shorter one kept."""
    write_uniform("a.vrp", 16, random.Random(8))
    write_routes(" ".join(f"{v} -1" for v in range(2, 17)), "bad.routes")
    said = certify("a.vrp", "bad.routes", "-o", "out.branches")
    need("a shorter tour" in said, f"nothing is said of the shorter plan: {said}")
    need(int(judged("a.vrp", "bad.routes")["gap"]) > 0, "no bound of the bad plan")
    kept = judged("a.vrp", "out.branches.tour")
    need("optimal" in kept, f"the shorter plan isn't beside the certificate: {kept}")
    length = need_optimal("a.vrp")
    certify("a.vrp", "out.routes", "-o", "out.branches", "--upper", str(length - 5))
    need(length - 5 <= int(judged("a.vrp")["bound"]) <= length, "the bound that was asked for isn't reached")


def forms():
    """Shortest routes are named as CVRPLIB and as LKH-3 write them: none that are read as others are the shortest."""
    write_uniform("a.vrp", 16, random.Random(8))
    need_optimal("a.vrp")
    lines = Path("out.routes").read_text().splitlines()[2:-1]
    routes = [[int(word) for word in line.split()[:-1]] for line in lines]
    customers = [" ".join(str(v - 1) for v in route) for route in routes]
    Path("named.sol").write_text("".join(f"Route #{k}: {line}\n" for k, line in enumerate(customers, 1)))
    tour = [1, *routes[0]]
    for copy, route in enumerate(routes[1:], 17):  # LKH-3 gives each further vehicle a depot of its own
        tour += [copy, *route]
    write_tour("copies.tour", tour)
    for name in ("named.sol", "copies.tour"):
        said = certify("a.vrp", name, "-o", "out.branches")
        need("shorter tour" not in said, f"{name}: other routes are read: {said}")
        need(f" check a.vrp {name} --form auto --branches out.branches" in said, f"{name}: another command: {said}")


def threads():
    """Any number of threads gives the same bytes, of a tree too."""
    write_uniform("a.vrp", 30, random.Random(9))
    texts = []
    for count in ("1", "2", "4"):
        certify("a.vrp", *BOTH, "--seconds", "0", "--threads", count)
        texts.append((Path("out.branches").read_bytes(), Path("out.routes").read_bytes()))
    need("optimal" in judged("a.vrp"), "not optimal")
    need(texts[0] == texts[1] == texts[2], "another number of threads gives other bytes")


def time_limit():
    """Two seconds are too short, and the file has a bound all the same, which is the reckoned one."""
    write_uniform("a.vrp", 150, random.Random(10), side=1000)
    begun = time.monotonic()
    said = certify("a.vrp", *BOTH, "--seconds", "2", "--log", "out.log")
    need(time.monotonic() - begun < 100 * PATIENCE, "the limit isn't kept")
    report = judged("a.vrp")
    need("a gap of" in said and report.get("gap", "0") in said, f"the gap isn't told: {said}")
    bounds = [event["bound"] for event in events()]
    need(max(bounds) == bounds[-1] == int(report["bound"]), f"a bound is lower at the end: {bounds}")
    need(f"bound {report['bound']} as reckoned" in said, f"another bound was reckoned: {said}")
    # A tree by other hands, whose scale has no common multiple with ours that a file may have.
    write_certificate(150, "", "0 -1", "SCALE : 11", name="eleven")
    certify("a.vrp", "out.routes", "--tree", "eleven", "-o", "out.branches", "--seconds", "2")
    need("gap" in judged("a.vrp"), "a certificate at another scale has no gap")


def no_time():
    """A run whose time is over at once has nearly the radial bound: each customer pays for its part of a vehicle's way."""
    chance = random.Random(13)
    points = [(chance.randint(0, 1000), chance.randint(0, 1000)) for _ in range(60)]
    demands = [0] + [chance.randint(1, 30) for _ in range(59)]
    write_vrp("a.vrp", demands, 100, points)
    radial = sum(2 * math.dist(points[0], point) * demand / 100 for point, demand in zip(points, demands))
    for words in ([], ["--memory"]):
        certify("a.vrp", *BOTH, "--cpu-seconds", "0.001", "--threads", "1", *words)
        bound = int(judged("a.vrp")["bound"])
        need(bound >= 0.99 * radial, f"{words}: a bound of {bound}, and the radial one is {radial:.0f}")


def interrupt():
    """SIGINT and SIGTERM end a search, and the files are written."""
    write_uniform("a.vrp", 150, random.Random(11), side=1000)
    for stop, status in ((signal.SIGINT, 130), (signal.SIGTERM, 143)):
        words = [CERTIFY, "a.vrp", *BOTH, "--seconds", "0", "--tsp", TSP]
        with subprocess.Popen(words, stderr=subprocess.PIPE, text=True) as running:
            time.sleep(2)
            running.send_signal(stop)
            said = running.communicate(timeout=200 * PATIENCE)[1]
            need(running.returncode == status, f"status {running.returncode} after {stop}: {said}")
        need(f"bound {judged('a.vrp')['bound']} as reckoned" in said, f"another bound was reckoned: {said}")


def split():
    """Leaves of a tree are gone on with alone, and parts are joined. A part that is missing leaves a gap."""
    write_uniform("a.vrp", 30, random.Random(9))
    leaves = support.split("a.vrp", "out.routes")
    need("gap" in judged("a.vrp", certificate="tree"), "the tree has no gap")
    parts = need_joined("a.vrp", "out.routes", leaves, judged)
    need("another tree" in certify("a.vrp", "--tree", "again", "--join", parts[0], "-o", "b", status=2), "a part")
    write_points("a.tsp", "EUC_2D", 30, random.Random(9))
    need("another instance" in certify("a.tsp", *BOTH, "--tree", "tree", status=2), "a tree of a CVRP for a TSP")


def limits():
    """No file is past small limits, and what is printed is its bound."""
    write_uniform("a.vrp", 30, random.Random(9))
    for most in ((3, 10**6, 10**7, 10**6), (10**4, 60, 10**7, 10**6), (10**4, 10**6, 40, 10**6), (10**4, 10**6, 10**7, 1)):
        said = certify("a.vrp", *BOTH, "--seconds", "0", "--limits", *map(str, most))
        need_within(most)
        report = judged("a.vrp")
        need(f"bound {report['bound']} as reckoned" in said, f"{most}: another bound was reckoned: {said}")
        need("optimal" in report or "are left open" in said, f"{most}: {report} {said}")


def log():
    """Each line is of JSON, and no bound is above its length."""
    write_uniform("a.vrp", 20, random.Random(12))
    certify("a.vrp", *BOTH, "--log", "out.log")
    told = events()
    need(told[-1]["event"] == "end" and told[-1]["gap"] == 0, f"the last event: {told[-1]}")
    need(told[-1]["length"] == int(judged("a.vrp")["length"]), f"another length: {told[-1]}")
    need(all(event["bound"] <= event["length"] and event["cuts"]["sets"] >= 1 for event in told), "a bound is above")


def bad_input():
    points, demands = RECTANGLE["points"], RECTANGLE["demands"]
    write_vrp("a.vrp", **RECTANGLE)
    write_vrp("heavy.vrp", demands, 3, points)
    write_vrp("depot.vrp", [1, 4, 4, 4], 8, points)
    write_vrp("alone.vrp", [0], 8, [(0, 0)])
    write_vrp("two.vrp", demands, 8, points, depot="1\n2")
    Path("fixed.vrp").write_text(Path("a.vrp").read_text().replace("EOF", "FIXED_EDGES_SECTION\n1 2\n-1\nEOF"))
    write_routes("2 -1 3 -1", "few.routes")
    write_routes("2 3 4 -1", "heavy.routes")
    Path("word.sol").write_text("Route #1: 1 x\n")
    write_certificate(5, "", "0 -1", name="other")
    write_certificate(4, "1 2 -1 -1 -1", "0 -1", name="depot")
    write_certificate(4, "", "2 3 0 -1 0 -1", name="pair")
    write_certificate(4, "", "5 1 0 -1 0 -1", name="family")
    faults = [
        (["heavy.vrp", *BOTH], "more than the capacity"),
        (["depot.vrp", *BOTH], "the depot's demand"),
        (["alone.vrp", *BOTH], "no customer"),
        (["two.vrp", *BOTH], "one depot"),
        (["fixed.vrp", *BOTH], "fixed edges"),
        (["a.vrp", "few.routes", "-o", "b"], "no routes of the instance"),
        (["a.vrp", "heavy.routes", "-o", "b"], "no routes of the instance"),
        (["a.vrp", "a.vrp", "-o", "b"], "wrong kind: a.vrp is of TYPE CVRP, and a.vrp is of TYPE CVRP; the solution has to be"),
        (["a.vrp", "word.sol", "-o", "b"], "word.sol: line 1 word 4: NotANode"),
        (["a.vrp", *BOTH, "--tree", "other"], "another instance"),
        (["a.vrp", *BOTH, "--tree", "depot"], "one set of customers"),
        (["a.vrp", *BOTH, "--tree", "pair"], "on a pair"),
        (["a.vrp", *BOTH, "--tree", "family"], "a family that isn't there"),
    ]
    need_refused(faults)


CASES = [
    small, memory, memory_limits, memory_states, memory_full, optimal, large_numbers, plan, forms, threads, time_limit,
    no_time, interrupt, split, limits, log, bad_input,
]  # fmt: skip

if __name__ == "__main__":
    run(CASES)
