#!/usr/bin/env python3
"""Tests of tsp-certify as a program: limits of time, signals, files, faults and its installation. program_cases.py CASE
TSP_CERTIFY TSP; support.py says more.
"""

import os
import random
import shutil
import signal
import subprocess
import sys
import time
from pathlib import Path

from support import CERTIFY, PATIENCE, TSP, certify, events, judged, need, need_bounded, need_installed, need_optimal, need_refused, run
from support import write_faulty, write_points, write_tour


def time_limit():
    """Two seconds are too short, by any number of threads, and the file has a bound all the same."""
    write_points("a.tsp", "EUC_2D", 1200, random.Random(10), side=10**6)
    for count in ("1", "4"):
        words = ["--seconds", "2", "--threads", count]
        begun = time.monotonic()
        said = certify("a.tsp", "-o", "out.branches", "--tour-out", "out.tour", *words)
        need(time.monotonic() - begun < 60 * PATIENCE, f"{count} threads: the limit isn't kept")
        report = judged("a.tsp")
        need("a gap of" in said and report.get("gap", "0") in said, f"the gap isn't told: {said}")
        need(int(report["bound"]) > 0.7 * int(report["length"]), f"a poor bound: {report}")


def bound_by_potentials(*words):
    """The bound of a.tsp by the potentials of tsp-potentials."""
    made = [Path(CERTIFY).with_name("tsp-potentials"), "a.tsp", "-o", "a.potentials", "--tsp", TSP, *words]
    subprocess.run(made, check=True, capture_output=True, timeout=100 * PATIENCE)
    said = subprocess.run([TSP, "bound", "a.tsp", "--potentials", "a.potentials"], capture_output=True, text=True).stdout
    return int(said.partition("bound ")[2].split()[0])


def no_time():
    """A run whose time is over at once has the bound of potentials all the same, also for a named tour and without a matrix."""
    write_points("a.tsp", "EUC_2D", 300, random.Random(17), side=10**6)
    files = ["-o", "out.branches", "--threads", "1", "--cpu-seconds", "0.001"]
    for least, *words in (
        (bound_by_potentials(), "--tour-out", "out.tour"),
        (bound_by_potentials(), "out.tour"),
        (bound_by_potentials("--steps", "100") * 0.9999, "--tour-out", "out.tour", "--sparse"),
    ):
        certify("a.tsp", *words, *files)
        bound = int(judged("a.tsp")["bound"])
        need(bound >= least - 1, f"{words}: a bound of {bound}, and that of potentials is {least}")


def large():
    """More than 5,000 points: the time limit, signals, and what isn't taken."""
    write_points("a.tsp", "EUC_2D", 5200, random.Random(15), side=10**6)
    begun = time.monotonic()
    need_bounded("a.tsp", 0.7, "--seconds", "25")  # a loaded machine has time for potentials alone
    need(time.monotonic() - begun < 100 * PATIENCE, "the limit isn't kept")
    for wait in (3, 20):
        found = signalled("4", (wait, signal.SIGINT))
        need(found == 130 and "bound" in judged("a.tsp"), f"status {found} after {wait} seconds")
    said = certify("a.tsp", "-o", "out.branches", "--tour-out", "out.tour", "--split", "4", status=2)
    need("one leaf" in said, f"another refusal: {said}")
    text = Path("a.tsp").read_text().replace(": TSP", ": ATSP")
    Path("a.atsp").write_text(text)
    said = certify("a.atsp", "-o", "out.branches", "--tour-out", "out.tour", status=2)
    need("more than 5000 nodes" in said, f"another refusal: {said}")


def signalled(threads, *signals):
    """The status of a run that gets these signals, each as many seconds after the one before."""
    words = [CERTIFY, "a.tsp", "-o", "out.branches", "--tour-out", "out.tour", "--seconds", "0", "--tsp", TSP]
    words += ["--threads", threads]
    Path("out.branches").unlink(missing_ok=True)
    with subprocess.Popen(words, stderr=subprocess.PIPE) as process:
        for wait, number in signals:
            time.sleep(wait)
            process.send_signal(number)
        process.communicate(timeout=120 * PATIENCE)
    return process.returncode


def interrupt():
    write_points("a.tsp", "EUC_2D", 1500, random.Random(12), side=10**6)
    for threads, signals, status in (
        ("4", [(3, signal.SIGINT)], 130),
        ("1", [(3, signal.SIGTERM)], 143),
        ("4", [(6, signal.SIGINT), (0.1, signal.SIGINT)], 130),  # as `timeout -s INT` does
        ("2", [(3, signal.SIGTERM), (0, signal.SIGINT)], None),  # either may come first
    ):
        found = signalled(threads, *signals)
        need(found in ((status,) if status else (130, 143)), f"status {found} after {signals}")
        need("bound" in judged("a.tsp"), f"no bound after {signals}")


def overwriting():
    """No file that is read is written, whatever its name, and no file is written twice."""
    write_points("a.tsp", "EUC_2D", 12, random.Random(24))
    need_optimal("a.tsp")
    kept = Path("a.tsp").read_bytes(), Path("out.tour").read_bytes()
    os.symlink("a.tsp", "soft")
    os.link("a.tsp", "hard")
    os.mkdir("here")
    read, twice = "this file is read, and would be overwritten", "this file is written already, and would be overwritten"
    for words, said in (
        (["a.tsp", "-o", "a.tsp", "--tour-out", "b.tour"], f"a.tsp: {read}: choose another name"),
        (["a.tsp", "-o", "./here/../a.tsp", "--tour-out", "b.tour"], f"{read} (it is a.tsp): choose another name"),
        (["a.tsp", "-o", "soft", "--tour-out", "b.tour"], read),
        (["soft", "-o", "hard", "--tour-out", "b.tour"], read),
        (["a.tsp", "-o", "b.branches", "--tour-out", "hard"], read),
        (["a.tsp", "out.tour", "-o", "out.tour"], read),
        (["a.tsp", "-o", "same", "--tour-out", "./same"], twice),
        (["a.tsp", "-o", "b.branches", "--tour-out", "b.tour", "--log", "soft"], read),
    ):
        need(said in certify(*words, status=2), f"{words}: a file would be overwritten")
        need(kept == (Path("a.tsp").read_bytes(), Path("out.tour").read_bytes()), f"{words}: a file is changed")
    certify("a.tsp", "out.tour", "-o", "again.branches", "--tour-out", "again.tour")
    certify("a.tsp", "out.tour", "-o", "again.branches", "--tour-out", "again.tour")  # these may be written anew


def log():
    """Each line is of JSON, and no bound is above its length."""
    write_points("a.tsp", "EUC_2D", 120, random.Random(5), side=10**6)  # more than one leaf
    certify("a.tsp", "-o", "out.branches", "--tour-out", "out.tour", "--log", "out.log")
    told = events()
    last = told[-1]
    need(last["event"] == "end" and last["gap"] == 0, f"the last event: {last}")
    need(last["length"] == int(judged("a.tsp")["length"]), f"another length: {last}")
    need(all(0 <= event["bound"] <= event["length"] for event in told), "a bound is above, or none")
    need(all(event["cuts"]["combs"] >= 0 for event in told), "no cuts are told")
    for clock in ("seconds", "processor"):
        need([event[clock] for event in told] == sorted(event[clock] for event in told), f"{clock}: not in order")
    certify("a.tsp", "-o", "out.branches", "--tour-out", "out.tour", "--log", "no/folder/log", status=2)


def bad_input():
    text = write_faulty()
    rows = (
        "TYPE:ATSP\nDIMENSION:3\nEDGE_WEIGHT_TYPE:EXPLICIT\nEDGE_WEIGHT_FORMAT:FULL_MATRIX\n"
        "EDGE_WEIGHT_SECTION\n0 1 2 3 0 4 5 6 0\n"
    )
    Path("odd.tsp").write_text(rows.replace("ATSP", "TSP") + "EOF\n")
    Path("back.atsp").write_text(rows + "FIXED_EDGES_SECTION\n1 2\n2 1\n-1\nEOF\n")
    Path("one.atsp").write_text("TYPE:ATSP\nDIMENSION:1\n" + rows.partition("3\n")[2].replace("0 1 2 3 0 4 5 6 0", "0"))
    Path("cut.tsp").write_text(text[: len(text) // 2])
    write_tour("long.tour", range(1, 14))
    Path("no.form").write_text("hello world\n")
    Path("cut.json").write_text('{"tour": [0, 1')
    Path("one.txt").write_text("1\n")
    Path("geo.tsp").write_text(text.replace("EUC_2D", "GEO"))
    out = ["-o", "out.branches"]
    both = [*out, "--tour-out", "out.tour"]
    faults = [
        (["short.tour", *both], "wrong kind: short.tour is of TYPE TOUR; the instance has to be of TYPE TSP, ATSP or CVRP"),
        (["short.tour", "a.tsp", *out], "wrong kind: short.tour is of TYPE TOUR, and a.tsp is of TYPE TSP; the instance"),
        (["short.tour", "no.form", *out], "wrong kind: short.tour is of TYPE TOUR, and no.form has no TYPE; the instance"),
        (["geo.tsp", *both], "the script examples/geo.py converts GEO"),
        (["back.atsp", *both], "no tour uses all fixed edges"),
        (["one.atsp", *both], "three nodes"),
        (["odd.tsp", *both], "symmetric"),
        (["cut.tsp", *both], "convert"),
        (["none.tsp", *both], "can't be opened: none.tsp: No such file or directory"),
        (["a.tsp", "none.tour", *out], "can't be opened: none.tour: No such file or directory"),
        (["star.tsp", *both], "no tour uses all fixed edges"),
        (["ring.tsp", *both], "no tour uses all fixed edges"),
        (["two.tsp", *both], "three nodes"),
        (["a.tsp", "short.tour", *out], "no tour of the instance, since node 4 isn't in it"),
        (["a.tsp", "long.tour", *out], "no tour of the instance, since the instance has no node 13"),
        (["a.tsp", "a.tsp", *out], "wrong kind: a.tsp is of TYPE TSP, and a.tsp is of TYPE TSP; the solution has to be"),
        (["a.tsp", "no.form", *out], "no.form: line 1 word 1: NoForm: The text has none of the forms"),
        (["a.tsp", "cut.json", *out], "BadJson: The text isn't JSON"),
        (["a.tsp", "one.txt", *out], "no tour of the instance, since node 2 isn't in it"),
        (["a.tsp", *out], "--tour-out"),
        (["a.tsp"], "-o"),
        ([], "INSTANCE"),
        (["a.tsp", *both, "--seconds", "x"], "--seconds"),
        (["a.tsp", *both, "--seconds", "-1"], "--seconds: -1 isn't a number from 0 on; --help lists all options"),
        (["a.tsp", *both, "--cpu-seconds", "nan"], "--cpu-seconds: nan isn't a number above 0"),
        (["a.tsp", *both, "--seed", "1.5"], "--seed"),
        (["a.tsp", *both, "--threads", "-1"], "--threads"),
        (["a.tsp", *both, "--window", "0"], "--window"),
        (["a.tsp", *both, "--split", "0"], "--split"),
        (["a.tsp", "out.tour", "more", *out], "more"),
        (["a.tsp", *both, "--wrong"], "--wrong"),
        (["a.tsp", *both, "--cpu-seconds", "1", "--seconds", "1"], "--seconds excludes --cpu-seconds"),
        (["none.tsp", "-o", "no/folder/out", "--tour-out", "out.tour"], "no/folder/out: No such file or directory"),
        (["none.tsp", "-o", ".", "--tour-out", "out.tour"], ".: Is a directory"),
    ]
    need_refused(faults)


def need_deciding(said, path):
    """The command that is printed at the end says yes, where a shell has this PATH."""
    command = said.partition("this decides: ")[2].strip()
    judged = subprocess.run(["/bin/sh", "-c", command], capture_output=True, text=True, env={**os.environ, "PATH": path})
    need(judged.stdout.endswith("yes\n"), f"the printed command fails with PATH={path}: {command}: {judged.stderr}")


def finding_tsp():
    """tsp is looked for beside the program, on PATH, and in the folders above. The script of a checkout needs PATH itself."""
    if Path(TSP).read_bytes()[:2] == b"#!":
        sys.exit(77)
    write_points("a.tsp", "EUC_2D", 12, random.Random(14))
    os.makedirs("above/here")
    shutil.copy(CERTIFY, "above/here")
    words = [os.path.abspath("above/here/tsp-certify"), "a.tsp", "-o", "out.branches", "--tour-out", "out.tour"]
    def find(path, *more):
        done = subprocess.run([*words, *more], capture_output=True, text=True, timeout=100 * PATIENCE,
                              env={**os.environ, "PATH": path})
        if done.returncode == 0:
            need_deciding(done.stderr, path)
        return done

    for place, path in ((None, "/nowhere"), ("above", "/nowhere"), ("on-path", os.path.abspath("on-path"))):
        if place:
            os.makedirs(place, exist_ok=True)
            os.symlink(TSP, f"{place}/tsp")
        done = find(path)
        need(done.returncode == (0 if place else 2), f"tsp in {place}: {done.stderr}")
        need(place or "--tsp" in done.stderr, f"no word of a missing tsp: {done.stderr}")
        if place:
            os.remove(f"{place}/tsp")
    os.makedirs("other")
    Path("other/tsp").write_text("#!/bin/sh\necho Task Spooler v1.0\n")
    os.chmod("other/tsp", 0o755)
    os.symlink(TSP, "above/here/tsp")
    need(find(os.path.abspath("other")).returncode == 0, "tsp beside the program isn't found before that on PATH")
    os.remove("above/here/tsp")
    os.makedirs("above/share/yokecairn")
    Path("above/share/yokecairn/PROGRAM").write_text("../../here/yokecairn\n")
    need(find("/nowhere").returncode == 2, "a program that isn't there is found")
    os.symlink(TSP, "above/here/yokecairn")
    need(find(os.path.abspath("other")).returncode == 0, "a program that is installed under another name isn't found")
    shutil.rmtree("above/share")
    os.symlink(TSP, "on-path/tsp")
    os.symlink(TSP, "on-path/yokecairn")
    os.symlink(TSP, "tsp")
    for name in ("tsp", "yokecairn", "./tsp", os.path.abspath("tsp")):
        need(find(os.path.abspath("on-path"), "--tsp", name).returncode == 0, f"--tsp {name} isn't found")
    for name in ("tsp", "./none", "on-path"):  # without a slash a name is looked for on PATH alone
        need(find("/nowhere", "--tsp", name).returncode == 2, f"--tsp {name} is found")
    Path("on-path/tsp").unlink()
    Path("on-path/tsp").write_text("#!/bin/sh\necho Task Spooler v1.0\n")
    os.chmod("on-path/tsp", 0o755)
    said = find(os.path.abspath("on-path")).stderr
    need("task-spooler" in said, f"another program of this name is taken: {said}")


def installing():
    need_installed("tsp-certify")


CASES = [time_limit, no_time, large, interrupt, overwriting, log, bad_input, finding_tsp, installing]

if __name__ == "__main__":
    run(CASES)
