#!/usr/bin/env python3
"""Tests of tsp-certify's trees and files: threads, parts, limits and short files. tree_cases.py CASE TSP_CERTIFY TSP; support.py
says more.
"""

import os
import random
import re
import shutil
import subprocess
import sys
from math import dist
from pathlib import Path

import support
from support import CERTIFY, PATIENCE, TSP, certify, extent, judged, need, need_joined, need_optimal, need_refused, need_same_bytes
from support import need_within, run, sets_of_cuts, skip, write, write_arcs, write_points

GUIDE = Path(__file__).resolve().parents[2] / "docs/guide.md"
EXAMPLE = Path(__file__).resolve().parents[2] / "bindings/python/examples/spread_leaves.py"


def same_bytes():
    write_points("a.tsp", "EUC_2D", 120, random.Random(11), side=10**6)
    need_same_bytes("a.tsp")


def threads():
    """Any number of threads gives the same bytes."""
    write_points("a.tsp", "EUC_2D", 200, random.Random(6), side=10**6)
    texts = []
    for count in ("1", "2", "4"):
        certify("a.tsp", "-o", "out.branches", "--tour-out", "out.tour", "--seconds", "0", "--threads", count)
        need("optimal" in judged("a.tsp"), "not optimal")
        texts.append((Path("out.branches").read_bytes(), Path("out.tour").read_bytes()))
    need(texts[0] == texts[1] == texts[2], "another number of threads gives other bytes")
    need(texts[0][0].partition(b"BRANCH_SECTION\n")[2].count(b"\n") > 6, "the tree has too few branches for a test")


def split_tree(leaves=3):
    """Writes a.tsp, and tree and out.tour with at least two open leaves, whose numbers it returns."""
    write_points("a.tsp", "EUC_2D", 200, random.Random(6), side=10**6)
    numbers = support.split("a.tsp", "out.tour", leaves)
    need("gap" in judged("a.tsp", certificate="tree"), "the tree has no gap")
    return numbers


def split():
    """Leaves of a tree are gone on with alone, and parts are joined. A part that is missing leaves a gap."""
    parts = need_joined("a.tsp", "out.tour", split_tree(), judged)
    faults = [
        (["--tree", "again", "--join", parts[0], "-o", "b"], "another tree"),
        (["--tree", "tree", "--join", "tree", "-o", "b"], "another tree"),
        (["out.tour", "--tree", "tree", "--leaf", "99999", "-o", "b"], "--leaf 99999"),
        (["out.tour", "--tree", "out.tour", "-o", "b"], "BRANCHES"),
        (["out.tour", "--leaf", "1", "-o", "b"], "--tree"),
        (["--join", parts[0], "-o", "b"], "--tree"),
        (["out.tour", "--tree", "tree", "--leaf", "1", "-o", "tree"], "overwritten"),
        (["--tree", "tree", "--join", parts[0], "-o", parts[0]], "overwritten"),
    ]
    need_refused((["a.tsp", *words], part) for words, part in faults)


def resume():
    """What a limit of time leaves open is gone on with, at another scale too, and split."""
    leaves = split_tree()
    text = Path("tree").read_text()
    need(" open " in text and "COMMENT : tsp-certify root-gap" in text, "the tree has no notes")
    certify("a.tsp", "out.tour", "--tree", "tree", "-o", "out.branches", "--seconds", "0")
    need("optimal" in judged("a.tsp"), "not optimal")
    need("COMMENT" not in Path("out.branches").read_text(), "a whole certificate has notes of open leaves")
    words = ["a.tsp", "out.tour", "--tree", "tree", "-o", "same", "--split", "1", "--tsp", TSP]
    done = subprocess.run([CERTIFY, *words], capture_output=True, text=True, check=True, timeout=250 * PATIENCE)
    need(done.stdout.split() == leaves, f"other leaves are open: {done.stdout.split()} and not {leaves}")
    # A tree by other hands: one leaf, whose scale is none of ours.
    Path("seven").write_text("TYPE : BRANCHES\nDIMENSION : 200\nSCALE : 11\nBRANCH_SECTION\n0 1 5 2 -5 -1\nEOF\n")
    certify("a.tsp", "out.tour", "--tree", "seven", "-o", "out.branches", "--seconds", "0")
    need("optimal" in judged("a.tsp"), "a leaf at another scale isn't gone on with")
    Path("more").write_text("TYPE : BRANCHES\nDIMENSION : 200\nBRANCH_SECTION\n0 205 1 -1\nEOF\n")
    for words in (["out.tour", "--tree", "more"], ["--tree", "tree", "--join", "more"]):
        said = certify("a.tsp", *words, "-o", "b", status=2)
        need("a family that isn't there" in said, f"{words}: a multiplier of no family: {said}")
    write_points("b.tsp", "EUC_2D", 20, random.Random(6))
    need("another instance" in certify("b.tsp", "--tour-out", "b.tour", "--tree", "tree", "-o", "b", status=2), "a tree")


def lines_of_guide(command):
    """The indented lines of the guide's section Many machines, from the one with --split on, with one that spreads
    leaves by this command."""
    section = GUIDE.read_text().partition("## Many machines\n")[2].partition("\n## ")[0]
    lines = [line.strip() for line in section.splitlines() if line.startswith("    ")]
    first = next(line for line in lines if "--split" in line)
    spread = next(line for line in lines if line.startswith(command))
    return [first, spread, *(line for line in lines if "--join" in line and "tsp-certify" in line)][:3]


def run_lines(*lines):
    """Runs lines of the guide where tsp-certify and tsp are on PATH, on this machine alone."""
    os.makedirs("bin", exist_ok=True)
    for name, path in (("tsp-certify", CERTIFY), ("tsp", TSP)):
        os.symlink(path, f"bin/{name}")
    path = f"{os.path.abspath('bin')}:{os.environ['PATH']}"
    for line in lines:
        done = subprocess.run(["sh", "-c", line], capture_output=True, text=True, timeout=250 * PATIENCE,
                              env={**os.environ, "PATH": path})
        need(done.returncode == 0, f"{line}: {done.stdout}{done.stderr}")


def parallel():
    """The guide's lines for GNU parallel, with this machine as the only host."""
    if not shutil.which("parallel"):
        skip("parallel", "parallel")
    write_points("a.tsp", "EUC_2D", 200, random.Random(6), side=10**6)
    Path("hosts").write_text(":\n")
    first, spread, join = lines_of_guide("parallel")
    run_lines(first.replace("--split 24", "--split 3"), spread, join)  # the tree is small
    need(len(list(Path(".").glob("part-*"))) > 1, "there are no parts")
    need("optimal" in judged("a.tsp", "a.tour", "a.branches"), "not optimal")


def dask():
    """The example for Dask, by two processes of this machine. A part that fails is tried again, and left out."""
    python = next((path for path in (sys.executable, "/usr/bin/python3") if has_dask(path)), None)
    if not python:
        skip("Dask", "python3-distributed")
    leaves = split_tree()
    Path("leaves").write_text("\n".join(leaves) + "\n")
    words = [python, str(EXAMPLE), "a.tsp", "out.tour", "--tree", "tree", "--leaves", "leaves", "--workers", "2"]
    for certificate, more, whole in (("out.branches", [CERTIFY], True), ("gap.branches", [write_failing(leaves[0])], False)):
        done = subprocess.run([*words, "-o", certificate, "--tsp", TSP, "--tsp-certify", *more], capture_output=True,
                              text=True, timeout=250 * PATIENCE)
        need(done.returncode == (0 if whole else 1), f"{certificate}: {done.stdout}{done.stderr}")
        need(("optimal" in judged("a.tsp", certificate=certificate)) == whole, f"{certificate}: {done.stderr}")
    need(f"leaf {leaves[0]}" in done.stderr, f"the leaf that is left out isn't named: {done.stderr}")
    need(Path("tries").read_text().count("again") == 3, f"it was tried as often: {Path('tries').read_text()}")


def has_dask(python):
    return subprocess.run([python, "-c", "import distributed"], capture_output=True, check=False).returncode == 0


def write_failing(leaf):
    """A program that fails for one leaf, and is tsp-certify for the others."""
    tries = os.path.abspath("tries")
    Path("failing").write_text(
        f"#!/bin/sh\ncase \" $* \" in *' --leaf {leaf} '*) echo again >> {tries}; exit 9;; esac\nexec {CERTIFY} \"$@\"\n"
    )
    os.chmod("failing", 0o755)
    return os.path.abspath("failing")


def short_numbers():
    """The numbers of leaves that are done are multiples of as much as lets them be."""
    write_points("a.tsp", "EUC_2D", 120, random.Random(5), side=10**6)
    need_optimal("a.tsp")
    scale = int(re.search(r"^SCALE : ([0-9]+)$", Path("out.branches").read_text(), re.M)[1])
    need(scale < 840, f"the scale is {scale}")


def short_file():
    """Linear programs make a shorter file, the same by any number of threads, and also of a finished certificate."""
    write_points("a.tsp", "EUC_2D", 200, random.Random(6), side=10**6)
    need_optimal("a.tsp", "--seconds", "0")
    long = Path("out.branches").read_bytes()
    texts = []
    for count in ("1", "4"):
        need_optimal("a.tsp", "--seconds", "0", "--short-file", "--threads", count)
        texts.append(Path("out.branches").read_bytes())
    need(texts[0] == texts[1], "another number of threads gives other bytes")
    need(len(texts[0]) < 0.95 * len(long), f"{len(texts[0])} bytes in place of {len(long)}")
    Path("long.branches").write_bytes(long)
    certify("a.tsp", "out.tour", "--tree", "long.branches", "-o", "anew.branches", "--seconds", "0", "--short-file")
    need("optimal" in judged("a.tsp", certificate="anew.branches"), "the shorter certificate isn't optimal")
    size = Path("anew.branches").stat().st_size
    need(size < 0.95 * len(long), f"the tree has {size} bytes, before {len(long)}")


def is_comb(sets):
    handle, *teeth = sets
    across = all(tooth & handle and tooth - handle for tooth in teeth)
    return len(teeth) % 2 == 1 and across and sum(map(len, teeth)) == len(set().union(*teeth))


def families():
    """No tour of the Petersen graph has ten edges of it. Combs don't show that, and a family does."""
    ring = range(5)
    edges = [pair for k in ring for pair in ((k, (k + 1) % 5), (k, k + 5), (k + 5, (k + 2) % 5 + 5))]
    near = {frozenset(edge) for edge in edges}
    rows = [" ".join(str(1 if frozenset((i, j)) in near else 2 * (i != j)) for j in range(10)) for i in range(10)]
    write("a.tsp", "EXPLICIT", [10, "EDGE_WEIGHT_FORMAT : FULL_MATRIX", "EDGE_WEIGHT_SECTION", *rows])
    for words, some in (([], True), (["--no-families"], False)):
        need(need_optimal("a.tsp", *words) == 11, f"{words}: another length than 11")
        found = [sets for sets in sets_of_cuts("out.branches") if len(sets) > 1 and not is_comb(sets)]
        need(bool(found) == some, f"{words}: the families are {found}")


def limited(families=10**4, nodes=10**6, differences=10**7, branches=10**6):
    """Words for other limits than those of a file, and the limits."""
    most = [families, nodes, differences, branches]
    return ["--limits", *map(str, most)], most


def limits():
    """No file is past small limits, by any number of threads, and what is printed is its bound."""
    chance = random.Random(5)
    write_points("a.tsp", "EUC_2D", 100, chance, side=10**6)
    certify("a.tsp", "-o", "out.branches", "--tour-out", "out.tour", "--seconds", "0")
    families, nodes, *_ = extent("out.branches")
    certify("a.tsp", "out.tour", "-o", "out.branches", "--seconds", "0", *limited(0)[0])
    differences, branches = extent("out.branches")[2:]  # of a larger tree
    for words, most, optimal in (
        (*limited(families // 2), True),
        (*limited(nodes=nodes // 2), True),
        (*limited(0), True),
        (*limited(0, differences=differences // 2), False),
        (*limited(0, differences=100), False),  # fewer than nodes
        (*limited(0, branches=branches // 2), False),
    ):
        texts = []
        for threads_used in ("1", "4"):
            said = certify("a.tsp", "out.tour", "-o", "out.branches", "--seconds", "0", "--threads", threads_used, *words)
            report = judged("a.tsp")
            need_within(most)
            need(("optimal" in report) == optimal == ("are left open" not in said), f"{most}: {report} {said}")
            need(f"bound {report['bound']} as reckoned" in said, f"{most}: {report}, and not as reckoned: {said}")
            texts.append(Path("out.branches").read_bytes())
        need(texts[0] == texts[1], f"{most}: another number of threads gives other bytes")
    words, most = limited(families // 2)
    write_points("b.tsp", "EUC_2D", 400, random.Random(5), side=10**6)
    said = certify("b.tsp", "-o", "out.branches", "--tour-out", "b.tour", "--seconds", "4", *words)
    need_within(most)
    need(f"bound {judged('b.tsp', 'b.tour')['bound']} as reckoned" in said, f"open leaves: {said}")
    words, most = limited(3)
    points = [(chance.randint(0, 1000), chance.randint(0, 1000)) for _ in range(40)]
    write_arcs(40, lambda i, j: round(dist(points[i], points[j])) + chance.randint(0, 20))
    said = certify("a.atsp", "-o", "out.branches", "--tour-out", "out.tour", "--seconds", "0", *words)
    need_within(most)
    need(f"bound {judged('a.atsp')['bound']} as reckoned" in said, f"sets of an ATSP: {said}")


def join_limits():
    """Parts share what a file may have. A part that is too large is left out and named, and --tree goes on with its leaf."""
    leaves = split_tree()
    first = extent("tree")
    for leaf in leaves:
        certify("a.tsp", "out.tour", "--tree", "tree", "--leaf", leaf, "-o", f"part-{leaf}", "--seconds", "0")
    parts = [f"part-{leaf}" for leaf in leaves]
    certify("a.tsp", "--tree", "tree", "-o", "out.branches", "--join", *parts)
    whole = extent("out.branches")
    for place, name in enumerate(("families", "nodes", "differences", "branches")):
        words, most = limited(**{name: whole[place] - 1})
        said = certify("a.tsp", "--tree", "tree", "-o", "out.branches", "--join", *parts, *words)
        need_within(most)
        need("left out" in said and sum(f" {part}" in said for part in parts) > 0, f"{most}: {said}")
        need("gap" in judged("a.tsp"), f"{most}: {judged('a.tsp')}")
    certify("a.tsp", "out.tour", "--tree", "out.branches", "-o", "again", "--seconds", "0")
    need("optimal" in judged("a.tsp", certificate="again"), "the leaf that was left out isn't gone on with")
    words, most = limited(first[0] + 2 * len(leaves))
    for leaf in leaves:
        certify("a.tsp", "out.tour", "--tree", "tree", "--leaf", leaf, "-o", f"part-{leaf}", "--seconds", "0", *words)
    said = certify("a.tsp", "--tree", "tree", "-o", "out.branches", "--join", *parts, *words)
    need_within(most)
    need("left out" not in said and "optimal" in judged("a.tsp"), f"parts that keep their shares: {said}")


CASES = [same_bytes, threads, split, resume, parallel, dask, short_numbers, short_file, families, limits, join_limits]

if __name__ == "__main__":
    run(CASES)
