"""What the producer's tests share: the programs, files that they write, and what a judge says.

Each test is SCRIPT CASE TSP_CERTIFY TSP. The proved program TSP judges each certificate, and a wrong answer ends the case with
status 1. CMakeLists.txt lists the cases, each as a test of ctest: a new case has to be named there too. tests/libraries/producer
runs them all, as the suite `producer` of ./check.
"""

import json
import os
import random
import re
import subprocess
import sys
import tempfile
from itertools import permutations
from pathlib import Path

CERTIFY, TSP = (os.path.abspath(path) for path in sys.argv[2:4])
SKIPPED = 77  # the status that ctest counts as a test that wasn't run
# Limits of time are as many times as long: CMakeLists.txt sets it for programs with sanitizers.
PATIENCE = int(os.environ.get("PATIENCE", "1"))
POINTS = ["EUC_2D", "CEIL_2D", "MAN_2D", "MAX_2D", "ATT"]
SPACE = ["EUC_3D", "MAN_3D", "MAX_3D"]


def need(holds, what):
    if not holds:
        sys.exit(f"FAILED: {what}")


def skip(what, package):
    print(f"{what} is missing: apt-get install {package}")
    sys.exit(SKIPPED)


def certify(*words, status=0):
    """What tsp-certify writes on standard error; it has to end with this status."""
    done = subprocess.run([CERTIFY, *words, "--tsp", TSP], capture_output=True, text=True, timeout=250 * PATIENCE)
    need(done.returncode == status, f"{words}: status {done.returncode} and not {status}: {done.stderr}")
    return done.stderr


def judged(instance, tour="out.tour", certificate="out.branches", *more):
    """The lines of the report as a dictionary."""
    words = [TSP, "check", instance, tour, "--branches", certificate, *more]
    done = subprocess.run(words, capture_output=True, text=True, timeout=60 * PATIENCE)
    need(done.returncode == 0, f"tsp check {instance}: {done.stdout}{done.stderr}")
    return {line.partition(" ")[0]: line.partition(" ")[2] for line in done.stdout.splitlines()}


def events():
    """The events that out.log tells of."""
    return [json.loads(line) for line in Path("out.log").read_text().splitlines()]


def sets_of_cuts(path):
    """The sets of each cut of a certificate, in the order of the file."""
    section = Path(path).read_text().partition("COMB_SECTION\n")[2].partition("-1\n-1\nBRANCH_SECTION")[0]
    return [[set(map(int, line.split()[:-1])) for line in cut.splitlines()] for cut in section.split("\n-1\n") if cut]


def extent(path):
    """How many families a certificate has, with how many nodes, and how many differences and branches."""
    families = sets_of_cuts(path)
    steps = [line.split() for line in Path(path).read_text().partition("BRANCH_SECTION\n")[2].splitlines()[:-1]]
    leaves = [step for step in steps if step[0] == "0"]
    nodes = sum(len(some) for sets in families for some in sets)
    return [len(families), nodes, sum(len(leaf) // 2 - 1 for leaf in leaves), len(steps) - len(leaves)]


def need_within(most, certificate="out.branches"):
    found = extent(certificate)
    need(all(count <= limit for count, limit in zip(found, most)), f"{certificate} has {found}, past {most}")


def need_optimal(instance, *words):
    certify(instance, "-o", "out.branches", "--tour-out", "out.tour", *words)
    report = judged(instance)
    need("optimal" in report, f"{instance}: not optimal: {report}")
    return int(report["length"])


def need_bounded(instance, least, *words):
    """A certificate without a matrix, whose bound is at least this part of the length. The bound."""
    said = certify(instance, "-o", "out.branches", "--tour-out", "out.tour", *words)
    report = judged(instance)
    bound, length = int(report["bound"]), int(report["length"])
    need(f"bound {bound} as reckoned" in said, f"{instance}: {report}, and not as reckoned: {said}")
    need(least * length <= bound <= length, f"{instance}: a poor bound: {report}")
    return bound


def need_refused(faults):
    """Each list of words ends with status 2, and with a text that has this part."""
    for words, part in faults:
        said = certify(*words, status=2)
        need(part in said, f"{words}: the fault doesn't tell of {part}: {said}")


def need_same_bytes(instance):
    """Two runs of a seed write the same files."""
    texts = []
    for name in ("one", "two"):
        certify(instance, "-o", f"{name}.branches", "--tour-out", f"{name}.tour", "--seconds", "0", "--seed", "4")
        texts.append((Path(f"{name}.branches").read_bytes(), Path(f"{name}.tour").read_bytes()))
    need(texts[0] == texts[1], "the same seed gives other bytes")


def need_installed(program):
    """The installed program runs, and its page names each option of its help."""
    cmake, build = sys.argv[4:6]
    subprocess.run([cmake, "--install", build, "--prefix", os.path.abspath("here")], check=True, capture_output=True)
    helped = subprocess.run([f"here/bin/{program}", "--help"], capture_output=True, text=True, check=True).stdout
    page = Path(f"here/share/man/man1/{program}.1").read_text().replace("\\", "")
    options = set(re.findall(r"(?<![-\w])--?[a-z][-a-z]*", helped))
    need(len(options) >= 8 and all(option in page for option in options), f"not all on the page: {options}")


def split(instance, tour, leaves=3):
    """Writes tree and the tour, with at least two open leaves, whose numbers it returns."""
    words = [instance, "-o", "tree", "--tour-out", tour, "--split", str(leaves), "--seconds", "0", "--tsp", TSP]
    done = subprocess.run([CERTIFY, *words], capture_output=True, text=True, timeout=250 * PATIENCE)
    numbers = done.stdout.split()
    need(done.returncode == 0 and len(numbers) >= 2, f"no split, or too few leaves are open: {numbers} {done.stderr}")
    return numbers


def need_joined(instance, tour, leaves, judged):
    """Leaves of a tree are gone on with alone, and parts are joined. A part that is missing leaves a gap. The parts."""
    for leaf in leaves:
        said = certify(instance, tour, "--tree", "tree", "--leaf", leaf, "-o", f"part-{leaf}", "--seconds", "0", "--threads", "1")
        need("kept by --tour-out alone" in said, f"a shorter solution of a part would be lost: {said}")
    parts = [f"part-{leaf}" for leaf in leaves]
    for given, whole in ((parts, True), (parts[1:], False), (parts[::-1], True)):
        certify(instance, "--tree", "tree", "-o", "out.branches", "--join", *given)
        report = judged(instance)
        need(("optimal" in report) == whole, f"{given}: {report}")
    certify(instance, "--tree", "tree", "-o", "again", "--join", *parts[1:])
    certify(instance, tour, "--tree", "again", "-o", "out.branches", "--seconds", "0")
    need("optimal" in judged(instance), "what was joined isn't gone on with")
    return parts


def write(name, kind, lines):
    text = [f"TYPE : {'ATSP' if name.endswith('.atsp') else 'TSP'}", f"DIMENSION : {lines[0]}", f"EDGE_WEIGHT_TYPE : {kind}", *lines[1:], "EOF"]
    Path(name).write_text("\n".join(map(str, text)) + "\n")


def write_points(name, kind, nodes, chance, *more, side=1000, places=0):
    axes = 3 if kind.endswith("3D") else 2
    rows = [
        f"{v} " + " ".join(f"{chance.uniform(0, side):.{places}f}" for _ in range(axes)) for v in range(1, nodes + 1)
    ]
    write(name, kind, [nodes, "NODE_COORD_SECTION", *rows, *more])


def write_matrix(name, layout, nodes, chance, low, high):
    """Writes a symmetric matrix, and returns it."""
    matrix = [[0] * nodes for _ in range(nodes)]
    for i in range(nodes):
        for j in range(i):
            matrix[i][j] = matrix[j][i] = chance.randint(low, high)
    rows = {
        "FULL_MATRIX": matrix,
        "UPPER_ROW": [row[i + 1 :] for i, row in enumerate(matrix)],
        "LOWER_DIAG_ROW": [row[: i + 1] for i, row in enumerate(matrix)],
        "UPPER_COL": [row[:i] for i, row in enumerate(matrix)],
    }[layout]
    lines = [" ".join(map(str, row)) for row in rows if row]
    write(name, "EXPLICIT", [nodes, f"EDGE_WEIGHT_FORMAT : {layout}", "EDGE_WEIGHT_SECTION", *lines])
    return matrix


def write_small(nodes):
    """Writes a.tsp. The least length of a tour, by all orders of the nodes."""
    matrix = write_matrix("a.tsp", "FULL_MATRIX", nodes, random.Random(nodes), -50, 50)
    tours = ((0, *order) for order in permutations(range(1, nodes)))
    return min(sum(matrix[tour[k - 1]][tour[k]] for k in range(nodes)) for tour in tours)


def write_layouts(nodes):
    """Writes a.tsp by one layout of a matrix after the other, with costs in other ranges."""
    ranges = [(1, 10**6), (0, 3), (-(10**6), 10**6), (10**12 - 1000, 10**12)]
    for layout, (low, high) in zip(["FULL_MATRIX", "UPPER_ROW", "LOWER_DIAG_ROW", "UPPER_COL"], ranges):
        write_matrix("a.tsp", layout, nodes, random.Random(layout), low, high)
        yield layout


def write_faulty():
    """Writes files that are refused: a star and a ring of fixed edges, two nodes, and a tour of three; by a.tsp, whose text it returns."""
    write_points("a.tsp", "EUC_2D", 12, random.Random(13))
    text = Path("a.tsp").read_text()
    Path("star.tsp").write_text(text.replace("EOF", "FIXED_EDGES_SECTION\n1 2\n1 3\n1 4\n-1\nEOF"))
    Path("ring.tsp").write_text(text.replace("EOF", "FIXED_EDGES_SECTION\n1 2\n2 3\n3 1\n-1\nEOF"))
    Path("two.tsp").write_text("TYPE:TSP\nDIMENSION:2\nEDGE_WEIGHT_TYPE:EUC_2D\nNODE_COORD_SECTION\n1 0 0\n2 1 1\nEOF\n")
    write_tour("short.tour", [1, 2, 3])
    return text


def write_tour(name, order):
    Path(name).write_text("TYPE : TOUR\nTOUR_SECTION\n" + "".join(f"{v}\n" for v in order) + "-1\nEOF\n")


def write_forms(order):
    """Writes a tour in several forms of `tsp solution`, by its nodes from 1 on. The names of the files, that of TYPE TOUR first."""
    from_zero = [v - 1 for v in order]
    write_tour("named.tour", order)
    texts = {
        "named.txt": "".join(f"{v}\n" for v in order),
        "named.json": json.dumps({"tour": from_zero}),
        "named.sol": f"{len(order)}\n" + " ".join(map(str, from_zero)) + "\n",
    }
    for name, text in texts.items():
        Path(name).write_text(text)
    return ["named.tour", *texts]


def write_arcs(nodes, cost, *more):
    """Writes a.atsp, and returns its matrix."""
    matrix = [[cost(i, j) if i != j else 0 for j in range(nodes)] for i in range(nodes)]
    lines = [" ".join(map(str, row)) for row in matrix]
    write("a.atsp", "EXPLICIT", [nodes, "EDGE_WEIGHT_FORMAT : FULL_MATRIX", "EDGE_WEIGHT_SECTION", *lines, *more])
    return matrix


def run(cases):
    """Runs the case that the command line names, in a folder of its own."""
    named = {case.__name__: case for case in cases}
    with tempfile.TemporaryDirectory() as folder:
        os.chdir(folder)
        named[sys.argv[1]]()
