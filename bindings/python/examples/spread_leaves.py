#!/usr/bin/env python3
"""Works the open leaves of a certificate on many machines, by Dask's distributed, and joins what comes of them.

    tsp-certify INSTANCE -o TREE --tour-out TOUR --split 24 > LEAVES
    python3 spread_leaves.py INSTANCE TOUR --tree TREE --leaves LEAVES -o CERTIFICATE --scheduler tcp://HOST:8786

With `--workers N` in place of `--scheduler` the leaves are worked by N processes of this machine. The workers read
INSTANCE, TOUR and TREE at the same paths, and need `tsp-certify` and `tsp`. A part comes back as bytes and is joined
here, so that no worker writes to a folder of others.

A leaf whose worker is lost, or whose program fails, is tried again twice. One that fails then is left out: it keeps
its bound, the certificate has a gap, and the exit status is 1. `tsp check` decides what a certificate is worth.

Its test is a case of producer/tests/tree_cases.py, which the suite `producer` of ./check runs.

It needs distributed. On Debian and Ubuntu this one command installs it, for /usr/bin/python3:

    apt-get install python3-distributed
"""

import argparse
import os
import subprocess
import sys
import tempfile
from pathlib import Path

try:
    from distributed import Client, LocalCluster, as_completed
except ImportError:
    sys.exit(f"spread_leaves: {sys.executable} has no distributed: apt-get install python3-distributed")

RETRIES = 2


def work(words, leaf):
    """The part of a leaf, as bytes. A worker calls it."""
    with tempfile.TemporaryDirectory() as folder:
        part = os.path.join(folder, "part")
        done = subprocess.run([*words, "--leaf", leaf, "-o", part, "--threads", "1"], capture_output=True, text=True)
        if done.returncode != 0:
            raise RuntimeError(f"status {done.returncode}: {done.stderr.strip()}")
        return Path(part).read_bytes()


def parts_of(client, words, leaves):
    """The parts by their leaf, as they come; how far it is, on a terminal."""
    futures = {client.submit(work, words, leaf, retries=RETRIES, pure=False): leaf for leaf in leaves}
    for done, future in enumerate(as_completed(futures), 1):
        leaf = futures[future]
        if future.status == "finished":
            yield leaf, future.result()
        else:
            print(f"spread_leaves: leaf {leaf} is left out: {future.exception()}", file=sys.stderr)
        future.release()
        if sys.stderr.isatty():
            print(f"\r{done} of {len(leaves)}", end="\n" if done == len(leaves) else "", file=sys.stderr)


def main():
    parser = argparse.ArgumentParser(description="Works the open leaves of a certificate on many machines.")
    parser.add_argument("instance", help="a file of TYPE TSP or ATSP")
    parser.add_argument("tour", help="the shortest known tour")
    parser.add_argument("--tree", required=True, help="a certificate with a gap")
    parser.add_argument("--leaves", required=True, help="the numbers of its open leaves")
    parser.add_argument("-o", dest="certificate", required=True, help="where the joined certificate is written")
    parser.add_argument("--seconds", default="0", help="for each leaf, 0 for no limit")
    parser.add_argument("--scheduler", help="the address of a scheduler")
    parser.add_argument("--workers", type=int, help="how many processes, where there is no scheduler")
    parser.add_argument("--tsp-certify", default="tsp-certify", help="the program")
    parser.add_argument("--tsp", default="tsp", help="the program that it reads files by")
    given = parser.parse_args()
    leaves = Path(given.leaves).read_text(encoding="ascii").split()
    tree = [given.tsp_certify, os.path.abspath(given.instance), "--tsp", given.tsp, "--tree", os.path.abspath(given.tree)]
    words = [*tree, os.path.abspath(given.tour), "--seconds", given.seconds]
    place = given.scheduler or LocalCluster(n_workers=given.workers, threads_per_worker=1, dashboard_address=None)
    with tempfile.TemporaryDirectory() as folder:
        paths = []
        with Client(place) as client:
            for leaf, part in parts_of(client, words, leaves):
                paths.append(os.path.join(folder, f"part-{leaf}"))
                Path(paths[-1]).write_bytes(part)
        if not given.scheduler:
            place.close()
        if paths:
            subprocess.run([*tree, "-o", given.certificate, "--join", *paths], check=True)
    return 0 if len(paths) == len(leaves) else 1


if __name__ == "__main__":
    sys.exit(main())
