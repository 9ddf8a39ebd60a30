#!/usr/bin/env python3
"""Tests of tsp-potentials. potentials_cases.py CASE TSP_POTENTIALS TSP; support.py says more."""

import os
import random
import re
import signal
import subprocess
import time
from pathlib import Path

from support import CERTIFY as PROGRAM
from support import PATIENCE, POINTS, SPACE, TSP, certify, events, need, need_installed, need_refused, run
from support import write_arcs, write_faulty, write_forms, write_layouts, write_matrix, write_points, write_small, write_tour

OUT = ["-o", "out.potentials"]
BOTH = [*OUT, "--tour-out", "out.tour"]


def judged(instance, tour="out.tour", potentials="out.potentials"):
    """The lines of the report as a dictionary."""
    words = ["check", instance, tour] if tour else ["bound", instance]
    done = subprocess.run([TSP, *words, "--potentials", potentials], capture_output=True, text=True, timeout=60 * PATIENCE)
    need(done.returncode == 0, f"tsp {words}: {done.stdout}{done.stderr}")
    return {line.partition(" ")[0]: line.partition(" ")[2] for line in done.stdout.splitlines()}


def found(instance, *words):
    """The bound and the length of a run, which have to be those that the proved program prints."""
    said = certify(instance, *BOTH, *words)
    numbers = {name: int(number) for name, number in re.findall(r"(bound|length) (-?\d+)", said)}
    report = judged(instance)
    need("as reckoned" not in said, f"{instance}: the bound isn't that of tsp: {said}")
    need(numbers == {name: int(report[name]) for name in numbers} and len(numbers) == 2, f"{said}, but {report}")
    need(numbers["bound"] <= numbers["length"], f"{instance}: the bound is above the length")
    return numbers["bound"], numbers["length"]


def near(instance, most, *words):
    """The gap may be up to this part of the length."""
    bound, length = found(instance, *words)
    need(length - bound <= most * length, f"{instance}: length {length}, bound {bound}")


def weights():
    for kind in POINTS + SPACE:
        for nodes, places in ((9, 9), (60, 3), (400, 0)):
            write_points("a.tsp", kind, nodes, random.Random(f"{kind} {nodes}"), places=places, side=10**5)
            near("a.tsp", 0.1 if nodes == 9 else 0.03)
    write_points("a.tsp", "EUC_2D", 50, random.Random(1), side=3)  # many points at one place
    found("a.tsp")


def small():
    """Against all orders of the nodes."""
    for nodes in range(3, 10):
        least = write_small(nodes)
        _, length = found("a.tsp", "--kicks", "300")
        need(length == least, f"{nodes} nodes: length {length}, and {least} is the least")


def matrix():
    for _ in write_layouts(60):
        found("a.tsp")
    write_matrix("a.tsp", "UPPER_ROW", 20, random.Random(1), 7, 7)
    need(found("a.tsp") == (140, 140), "all weights are 7")


def fixed():
    chance = random.Random(5)
    for nodes in (9, 10, 50, 300):
        order = chance.sample(range(1, nodes + 1), nodes)
        pairs = [f"{a} {b}" for a, b in zip(order[: nodes // 2], order[1 : nodes // 2]) if chance.randrange(3)]
        write_points("a.tsp", "EUC_2D", nodes, chance, "FIXED_EDGES_SECTION", *pairs, pairs[0], "-1", side=10**5)
        near("a.tsp", 0.1 if nodes < 20 else 0.03)
    every = [f"{a} {a % 12 + 1}" for a in range(1, 13)]
    write_points("a.tsp", "EUC_2D", 12, chance, "FIXED_EDGES_SECTION", *every, "-1")
    near("a.tsp", 0)
    write_matrix("a.tsp", "FULL_MATRIX", 30, chance, 1, 100)
    text = Path("a.tsp").read_text().replace("EOF", "FIXED_EDGES_SECTION\n1 2\n2 9\n4 7\n-1\nEOF")
    Path("a.tsp").write_text(text)
    found("a.tsp")


def atsp():
    chance = random.Random(21)
    for nodes, low, high in ((3, -5, 5), (40, 1, 1000), (80, -(10**6), 10**6), (40, 0, 3), (30, 10**12 - 1000, 10**12)):
        write_arcs(nodes, lambda i, j, low=low, high=high: chance.randint(low, high))
        said = certify("a.atsp", *OUT)
        need(f"bound {judged('a.atsp', None)['bound']}," in said, f"another bound than that of tsp: {said}")
    write_tour("a.tour", range(1, 31))
    said = certify("a.atsp", "a.tour", *OUT)
    need(f"length {judged('a.atsp', 'a.tour')['length']}," in said, f"another length than that of tsp: {said}")
    write_points("points.atsp", "EUC_2D", 40, chance)
    certify("points.atsp", *OUT)
    need(int(judged("points.atsp", None)["bound"]) > 0, "no bound")


def named_tour():
    """The gap of a tour that is named is told, and a bad one is made shorter."""
    write_points("a.tsp", "EUC_2D", 100, random.Random(8), side=10**5)
    write_tour("bad.tour", range(1, 101))
    bad = int(judged_after(["a.tsp", "bad.tour", *OUT], "bad.tour")["length"])
    better = int(judged_after(["a.tsp", "bad.tour", *BOTH], "out.tour")["length"])
    need(better < bad / 3, f"length {better} after {bad}")
    Path("kept.tour").write_bytes(Path("out.tour").read_bytes())
    again = int(judged_after(["a.tsp", "kept.tour", *BOTH, "--kicks", "0"], "out.tour")["length"])
    need(again <= better, "a shorter tour isn't kept")


def forms():
    """The length of a tour is that of its nodes, in any form."""
    write_points("a.tsp", "EUC_2D", 50, random.Random(9))
    names = write_forms(random.Random(9).sample(range(1, 51), 50))
    certify("a.tsp", *OUT)
    length = judged("a.tsp", "named.tour")["length"]
    for name in names:
        said = certify("a.tsp", name, *OUT)
        need(f"length {length}," in said and "as reckoned" not in said, f"{name}: not length {length}: {said}")
        need(f" check a.tsp {name} --form auto --potentials" in said, f"{name}: another command: {said}")


def judged_after(words, tour):
    certify(*words)
    return judged("a.tsp", tour)


def newcomer():
    """The two commands of the guide's section Potentials, as they are written."""
    text = (Path(__file__).resolve().parents[2] / "docs/guide.md").read_text()
    lines = [line.strip() for line in text.splitlines() if line.startswith("    ")]
    at = next(k for k, line in enumerate(lines) if line.startswith("producer/out/tsp-potentials a.tsp"))
    write_points("a.tsp", "EUC_2D", 1000, random.Random(30), side=10**6)
    os.makedirs("producer/out")
    os.symlink(PROGRAM, "producer/out/tsp-potentials")
    os.symlink(TSP, "tsp")
    for line in lines[at : at + 2]:
        done = subprocess.run(line, shell=True, capture_output=True, text=True, timeout=120 * PATIENCE, check=False)
        need(done.returncode == 0, f"{line}: {done.stdout}{done.stderr}")
    report = done.stdout.splitlines()
    gap, length = (int(line.split()[1]) for word in ("gap", "length") for line in report if line.startswith(word))
    need(report[-1] == "yes" and 0 < gap < 0.03 * length, f"the report: {report}")


def time_limits():
    """A limit counts seconds of a clock, or processor seconds, which are fewer where the program has to wait."""
    write_points("a.tsp", "EUC_2D", 500, random.Random(9), side=10**6)
    for word in ("--seconds", "--cpu-seconds"):
        said = certify("a.tsp", *BOTH, word, "2")
        steps, kicks = (int(re.search(rf"{name} (\d+)", said)[1]) for name in ("steps", "kicks"))
        clock, processor = (float(it) for it in re.search(r", seconds ([\d.]+), processor seconds ([\d.]+)", said).groups())
        took = clock if word == "--seconds" else processor
        need(steps >= 20 and kicks > 100 and 0.5 < took < 4 * PATIENCE, f"{word} 2: {said}")


def same_bytes():
    """The same words give the same files, and so do the numbers that a run by seconds prints."""
    write_points("a.tsp", "EUC_2D", 500, random.Random(9), side=10**6)
    said = certify("a.tsp", *BOTH, "--seconds", "1")
    words = [word for name in ("steps", "kicks") for word in (f"--{name}", re.search(rf"{name} (\d+)", said)[1])]
    texts = [(Path("out.potentials").read_bytes(), Path("out.tour").read_bytes())]
    for _ in range(2):
        certify("a.tsp", *BOTH, *words)
        texts.append((Path("out.potentials").read_bytes(), Path("out.tour").read_bytes()))
    need(texts[0] == texts[1], f"{words}: other files than those of a run by seconds")
    need(texts[1] == texts[2], f"{words}: the files differ")
    tours = []
    for seed in ("1", "2"):
        # Few kicks: after many, both seeds may come to one tour.
        certify("a.tsp", *BOTH, "--steps", "20", "--kicks", "2000", "--seed", seed)
        tours.append(Path("out.tour").read_bytes())
    need(tours[0] != tours[1], "another seed gives the same tour")


def interrupt():
    """A signal in the ascent or in the search for a tour writes what was found."""
    write_points("a.tsp", "EUC_2D", 3000, random.Random(12), side=10**6)
    for more in (["--steps", "1000000"], ["--steps", "50", "--kicks", "100000000"]):
        for wait, number, status in ((2, signal.SIGINT, 130), (2, signal.SIGTERM, 143)):
            for path in ("out.potentials", "out.tour"):
                Path(path).unlink(missing_ok=True)
            with subprocess.Popen([PROGRAM, "a.tsp", *BOTH, *more, "--tsp", TSP], stderr=subprocess.PIPE) as process:
                time.sleep(wait)
                process.send_signal(number)
                process.communicate(timeout=60 * PATIENCE)
            need(process.returncode == status, f"status {process.returncode} after {number}")
            report = judged("a.tsp")
            need(int(report["bound"]) > 0.6 * int(report["length"]), f"{more}: {report}")


def overwriting():
    write_points("a.tsp", "EUC_2D", 12, random.Random(24))
    certify("a.tsp", *BOTH)
    kept = Path("a.tsp").read_bytes(), Path("out.tour").read_bytes()
    os.symlink("a.tsp", "soft")
    for words in (
        ["a.tsp", "-o", "soft"],
        ["soft", "-o", "b.potentials", "--tour-out", "a.tsp"],
        ["a.tsp", "out.tour", "-o", "out.tour"],
        ["a.tsp", "-o", "same", "--tour-out", "./same"],
        ["a.tsp", "-o", "b.potentials", "--log", "a.tsp"],
    ):
        need("overwritten" in certify(*words, status=2), f"{words}: a file would be overwritten")
        need(kept == (Path("a.tsp").read_bytes(), Path("out.tour").read_bytes()), f"{words}: a file is changed")


def log():
    """Each line is of JSON, and no bound is above its length."""
    write_points("a.tsp", "EUC_2D", 300, random.Random(5), side=10**6)
    certify("a.tsp", *BOTH, "--log", "out.log")
    told = events()
    need([event["event"] for event in told[-2:]] == ["tour", "end"], f"the last events: {told[-2:]}")
    need(told[-1]["length"] == int(judged("a.tsp")["length"]), f"another length: {told[-1]}")
    need(all(event["length"] - event["bound"] == event["gap"] >= 0 for event in told), "a bound is above, or none")
    need([event["seconds"] for event in told] == sorted(event["seconds"] for event in told), "not in order")
    certify("a.tsp", *OUT, "--log", "out.log")
    need("gap" not in Path("out.log").read_text(), "a gap without a tour")
    certify("a.tsp", *OUT, "--log", "no/folder/log", status=2)


def bad_input():
    text = write_faulty()
    rows = "DIMENSION:3\nEDGE_WEIGHT_TYPE:EXPLICIT\nEDGE_WEIGHT_FORMAT:FULL_MATRIX\nEDGE_WEIGHT_SECTION\n"
    Path("odd.tsp").write_text(f"TYPE:TSP\n{rows}0 1 2 3 0 4 5 6 0\nEOF\n")
    Path("odd.atsp").write_text(f"TYPE:ATSP\n{rows}0 1 2 3 0 4 5 6 0\nEOF\n")
    Path("routes.vrp").write_text(text.replace(": TSP", ": CVRP").replace("EOF", "CAPACITY : 9\nDEMAND_SECTION\n")
        + "".join(f"{v} {min(v - 1, 1)}\n" for v in range(1, 13)) + "DEPOT_SECTION\n1\n-1\nEOF\n")
    Path("pair.tsp").write_text(text.replace("EOF", "FIXED_EDGES_SECTION\n1 2\n-1\nEOF"))
    Path("no.form").write_text("hello world\n")
    write_tour("other.tour", [1, 3, 2, *range(4, 13)])
    faults = [
        (["routes.vrp", *OUT], "wrong kind: routes.vrp is of TYPE CVRP; the instance has to be of TYPE TSP or ATSP"),
        (["odd.tsp", *OUT], "symmetric"),
        (["odd.atsp", *BOTH], "tsp-certify"),
        (["none.tsp", *OUT], "can't be opened: none.tsp: No such file or directory"),
        (["star.tsp", *OUT], "no tour uses all fixed edges"),
        (["ring.tsp", *OUT], "no tour uses all fixed edges"),
        (["two.tsp", *OUT], "three nodes"),
        (["a.tsp", "short.tour", *OUT], "no tour of the instance, since node 4 isn't in it"),
        (["a.tsp", "a.tsp", *OUT], "wrong kind: a.tsp is of TYPE TSP, and a.tsp is of TYPE TSP; the solution has to be"),
        (["a.tsp", "no.form", *OUT], "no.form: line 1 word 1: NoForm"),
        (["pair.tsp", "other.tour", *OUT], "doesn't use all fixed edges"),
        (["a.tsp"], "-o"),
        ([], "INSTANCE"),
        (["a.tsp", *OUT, "--seconds", "0"], "--seconds: 0 isn't a number above 0; --help lists all options"),
        (["a.tsp", *OUT, "--cpu-seconds", "0"], "--cpu-seconds"),
        (["a.tsp", *OUT, "--cpu-seconds", "1", "--seconds", "1"], "--seconds excludes --cpu-seconds"),
        (["a.tsp", *OUT, "--steps", "0"], "--steps"),
        (["a.tsp", *OUT, "--kicks", "-1"], "--kicks"),
        (["a.tsp", *OUT, "--wrong"], "--wrong"),
        (["none.tsp", "-o", "no/folder/out"], "no/folder/out: No such file or directory"),
    ]
    need_refused(faults)


def installing():
    need_installed("tsp-potentials")


CASES = [
    weights, small, matrix, fixed, atsp, named_tour, forms, newcomer, time_limits, same_bytes, interrupt, overwriting, log,
    bad_input, installing,
]  # fmt: skip

if __name__ == "__main__":
    run(CASES)
