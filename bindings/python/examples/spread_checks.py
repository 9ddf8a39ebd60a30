#!/usr/bin/env python3
"""Spreads a list of checks over machines, by Dask's distributed.

    python3 spread_checks.py LIST --scheduler tcp://HOST:8786
    python3 spread_checks.py LIST --workers 4

A line of LIST has two to four fields with a tab between them:

    INSTANCE  SOLUTION  [potentials=PATH or branches=PATH]  [length=N]

Empty lines and lines that begin with # are skipped. With `--scheduler` the checks run on the workers of
that scheduler, which read the files at the same paths: yokecairn has to be installed there. Without it
they run in processes of this machine. For each line one line is written, in the order of the list, with
a tab between its fields:

    INSTANCE  SOLUTION  STATUS  TYPE  NODES  LENGTH  BOUND  VERDICT

The statuses are those of the program `tsp`, and the exit status is the largest of all. Lines with the same instance
and certificate, and without a length, are compared together, up to 100 of them by a worker.

It needs distributed. On Debian and Ubuntu this one command installs it, for /usr/bin/python3:

    apt-get install python3-distributed
"""

import argparse
import sys

try:
    from distributed import Client, LocalCluster, as_completed
except ImportError:
    sys.exit(f"spread_checks: {sys.executable} has no distributed: apt-get install python3-distributed")

import yokecairn

MOST = 100  # jobs of a group


def jobs_of(path):
    """The jobs of a list."""
    jobs = []
    with open(path, encoding="utf-8", errors="surrogateescape") as lines:
        for number, line in enumerate(lines, 1):
            fields = line.rstrip("\r\n").split("\t")
            if line.startswith("#") or not line.strip():
                continue
            named = dict(field.partition("=")[::2] for field in fields[2:] if field)
            if len(fields) < 2 or named.keys() - {"potentials", "branches", "length"}:
                sys.exit(f"spread_checks: {path}, line {number}: this is no line of a list")
            if "length" in named:
                named["length"] = int(named["length"])
            jobs.append(yokecairn.Job(fields[0], fields[1], **named))
    return jobs


def groups_of(jobs):
    """The places of jobs that are judged together, up to MOST in a group."""
    found = {}
    for place, job in enumerate(jobs):
        alone = place if job.length is not None else None
        found.setdefault((job.instance, job.potentials, job.branches, alone), []).append(place)
    return [places[first : first + MOST] for places in found.values() for first in range(0, len(places), MOST)]


def outcome(job):
    """The report of a job, or the exception that its check raised."""
    try:
        return yokecairn.check(*job)
    except Exception as fault:
        return fault


def outcomes(jobs):
    """What comes of each job of a group. A worker calls it. The instance and the certificate are read once; where they
    have a fault, each check says so."""
    first = jobs[0]
    if len(jobs) > 1:
        try:
            solutions = [job.solution for job in jobs]
            found = yokecairn.compare(first.instance, solutions, potentials=first.potentials, branches=first.branches)
            if found.basis.reason is None:
                return list(found)
        except Exception:
            pass
    return [outcome(job) for job in jobs]


def fields_of(outcome):
    """The status of a report or of an exception, and the last fields of its line."""
    if isinstance(outcome, yokecairn.Report):
        verdict = "optimal" if outcome.optimal else "yes"
        if not outcome:
            verdict = " ".join(map(str, (outcome.reason, *outcome.numbers)))
        known = (outcome.type, outcome.nodes, outcome.length, outcome.bound)
        return int(not outcome), [*("-" if it is None else str(it) for it in known), verdict]
    told, status = str(outcome), 4
    if isinstance(outcome, yokecairn.Fault):
        told, status = outcome.told, 2
    elif isinstance(outcome, MemoryError):
        told, status = "out of memory", 3
    elif isinstance(outcome, OSError):
        told, status = f"{outcome.filename}: {outcome.strerror}", 5
    return status, ["-"] * 4 + [told]


def outcomes_of(client, jobs):
    """What comes of each job, in the order of the jobs; how far it is, on a terminal."""
    groups = groups_of(jobs)
    futures = client.map(outcomes, [[jobs[place] for place in places] for places in groups], pure=False)
    sizes, done = dict(zip((future.key for future in futures), map(len, groups))), 0
    for future in as_completed(futures):
        done += sizes[future.key]
        if sys.stderr.isatty():
            print(f"\r{done} of {len(jobs)}", end="\n" if done == len(jobs) else "", file=sys.stderr)
    found = {}
    for places, group in zip(groups, client.gather(futures)):
        found.update(zip(places, group))
    return [found[place] for place in range(len(jobs))]


def main():
    parser = argparse.ArgumentParser(description="Spreads a list of checks over machines.")
    parser.add_argument("list", help="the list")
    parser.add_argument("--scheduler", help="the address of a scheduler")
    parser.add_argument("--workers", type=int, help="how many processes, where there is no scheduler")
    given = parser.parse_args()
    jobs = jobs_of(given.list)
    if given.scheduler:
        place = given.scheduler
    else:
        place = LocalCluster(n_workers=given.workers, threads_per_worker=1, dashboard_address=None)
    with Client(place) as client:
        rows = [fields_of(outcome) for outcome in outcomes_of(client, jobs)]
    if not given.scheduler:
        place.close()
    for job, (status, fields) in zip(jobs, rows):
        print(*job[:2], status, *fields, sep="\t")
    return max((status for status, _ in rows), default=0)


if __name__ == "__main__":
    sys.exit(main())
