"""What the program has to say of checks, bounds and comparisons. Faults are found by the second reader, and reasons,
lengths and bounds by examples/recheck.py, which follow docs/format.md alone."""
from __future__ import annotations

from functools import cached_property

import recheck
from reader import INSTANCES, LAYOUTS, Fault, File, Wrong, read, whole
from recheck import No
from writer import Refused, canonical, fields_of, not_judged, relaid, shown

Result = tuple[int, bytes, bytes]  # the exit status, standard output and standard error


class Judge:
    """The judge of one instance, with a certificate where there is one."""

    def __init__(self, instance: File, certificate: File | None = None, kind: str = "") -> None:
        self.instance, self.nodes, self.routes = instance, instance.nodes, instance.type == "CVRP"
        self.fields = fields_of(instance)
        self.certificate = fields_of(certificate) if certificate else None
        self.kind = "routes" if kind and self.routes else kind
        self.costs = recheck.costs_of(self.fields, self.nodes)

    def head(self) -> bytes:
        return f"type {self.instance.type}\nnodes {self.nodes}\n".encode() + not_judged(self.instance)

    @cached_property
    def fleet(self) -> recheck.Fleet:
        """The instance of routes, if no reason is against it."""
        return recheck.Fleet(self.fields, self.nodes)

    def against_instance(self) -> None:
        """The reasons against an instance that no solution comes with."""
        recheck.see_instance(self.fields, self.costs, self.nodes)
        if self.routes:
            self.fleet

    def bound(self) -> int | None:
        """The bound, or None where no leaf of a tree counts; a reason against the certificate is raised."""
        return recheck.bound_of(self.kind, self.fields, self.certificate, self.costs, self.nodes) if self.kind else None

    def measured(self, solution: File, claim: int | None = None) -> tuple[int, int]:
        """The length of a solution, and how many routes it has."""
        given = self.fields, fields_of(solution), self.costs, self.nodes
        if self.routes:
            fleet, routes = recheck.routes_of(*given)
            found, count = fleet.length(self.costs, routes), len(routes)
        else:
            found, count = recheck.around(recheck.tour_of(*given), self.costs), 1
        if claim is not None and claim != found:
            raise No(f"LengthClaimed {found}")
        return found, count

    def against_keywords(self, strict: bool) -> None:
        """With `strict`, raises the reason against an instance with an unknown keyword, or with a field that it doesn't use."""
        if not strict:
            return
        for keyword, _ in self.instance.others:
            raise No(f"NotJudged {keyword.decode('latin-1')}")
        for keyword in self.keywords():
            if not self.is_used(keyword):
                raise No(f"NotUsed {keyword}")

    def keywords(self) -> list[str]:
        """The fields that the instance has, in canonical order."""
        keywords = [line.partition(b" ")[0].decode("latin-1") for line in canonical(self.instance).split(b"\n")]
        return [keyword for keyword in keywords if keyword[:1].isalpha() and keyword not in ("COMMENT", "EOF")]

    def is_used(self, keyword: str) -> bool:
        """Whether the verdict depends on a field, or the field only draws the instance."""
        if keyword in ("CAPACITY", "DEMAND_SECTION", "DEPOT_SECTION"):
            return self.routes
        if keyword in ("EDGE_WEIGHT_FORMAT", "EDGE_WEIGHT_SECTION"):
            return self.instance.values["EDGE_WEIGHT_TYPE"] == "EXPLICIT" or self.instance.values["EDGE_WEIGHT_FORMAT"] == "FUNCTION"
        others = ("SCALE", "LOAD_UNIT", "TOUR_SECTION", "COMB_SECTION", "BRANCH_SECTION")
        return keyword not in others and not keyword.endswith("_POTENTIAL_SECTION")

    def least(self) -> int:
        """The least number of vehicles that carry all demands."""
        return -(-self.fleet.load(self.fleet.customers) // self.fleet.capacity)


# ---- what the program writes


def files_of(texts: list[bytes]) -> list[File] | bytes:
    """The files of these texts, or the line of the first fault."""
    files = []
    for number, text in enumerate(texts, 1):
        try:
            files.append(read(text))
        except Fault as fault:
            return f"file {number}: {fault}\n".encode()
    return files


def told(head: bytes, *lines: str) -> bytes:
    return head + "".join(f"{line}\n" for line in lines).encode()


def show(text: bytes) -> Result:
    files = files_of([text])
    return (2, b"", files) if isinstance(files, bytes) else (0, shown(files[0]), b"")


def convert(text: bytes, layout: str = "") -> Result:
    if layout and layout not in LAYOUTS:
        return 4, b"", b"unknown layout\n"
    files = files_of([text])
    if isinstance(files, bytes):
        return 2, b"", files
    try:
        return 0, relaid(files[0], layout) if layout else canonical(files[0]), b""
    except Refused as why:
        return 1, b"", f"relayout: {why}\n".encode()


def judge_of(texts: list[bytes], kind: str, place: int) -> tuple[Judge, list[File]] | Result:
    """The judge of an instance and the files, whose certificate has this place; or what comes in place of a verdict."""
    files = files_of(texts)
    if isinstance(files, bytes):
        return 2, b"", files
    accepted = ("TSP", "ATSP") if kind == "potentials" else INSTANCES
    if files[0].type not in accepted:
        return 2, b"", b"file 1: wrong kind\n"
    return Judge(files[0], files[place] if kind else None, kind), files


def check(
    instance: bytes, solution: bytes, certificate: bytes = b"", kind: str = "", word: bytes = b"", strict: bool = False
) -> Result:
    """A check, with a word for the length that is claimed, or none, and with unknown keywords as a reason or not."""
    try:
        claim = whole(word, -(2**63), 2**63 - 1) if word else None
    except Wrong:
        return 4, b"", b"not a length\n"
    found = judge_of([instance, solution, *([certificate] if kind else [])], kind, 2)
    if len(found) == 3:
        return found
    judge, files = found
    try:
        measured, routes = judge.measured(files[1], claim)
        least = judge.bound()
        judge.against_keywords(strict)
    except No as reason:
        return 1, told(judge.head(), f"no {reason}"), b""
    lines = [f"routes {routes}", f"least {judge.least()}"] if judge.routes else []
    lines.append(f"length {measured}")
    if kind:
        lines += [f"bound {least}", "optimal" if measured == least else f"gap {measured - least}"]
    return 0, told(judge.head(), *lines, "yes"), b""


def without_solution(texts: list[bytes], kind: str, strict: bool) -> tuple[Judge, int | None] | Result:
    """The judge of an instance and the bound of a certificate; or what comes in place of a verdict."""
    found = judge_of(texts, kind, 1)
    if len(found) == 3:
        return found
    judge, _ = found
    try:
        judge.against_instance()
        least = judge.bound()
        judge.against_keywords(strict)
    except No as reason:
        return 1, told(judge.head(), f"no {reason}"), b""
    return judge, least


def bound(instance: bytes, certificate: bytes, kind: str, strict: bool = False) -> Result:
    found = without_solution([instance, certificate], kind, strict)
    if len(found) == 3:
        return found
    judge, least = found
    return 0, told(judge.head(), f"bound {'none' if least is None else least}", "yes"), b""


def compare(
    instance: bytes, solutions: list[tuple[str, bytes]], certificate: bytes = b"", kind: str = "", strict: bool = False
) -> Result:
    """A comparison of solutions, each with its path."""
    found = without_solution([instance, *([certificate] if kind else [])], kind, strict)
    if len(found) == 3:
        return found
    judge, least = found
    lines, status = [], 0
    if judge.routes and (least is not None or not kind):
        lines.append(f"least {judge.least()}")
    if kind:
        lines.append(f"bound {'none' if least is None else least}")
    for path, text in solutions:
        try:
            measured, routes = judge.measured(read(text))
            count = f"routes {routes} " if judge.routes else ""
            met = "optimal " if measured == least else f"gap {measured - least} " if kind else ""
            lines.append(f"{measured} {count}{met}{path}")
        except Fault as fault:
            lines.append(f"{fault} {path}")
            status = max(status, 2)
        except No as reason:
            lines.append(f"no {reason} {path}")
            status = max(status, 1)
    return status, told(judge.head(), *lines), b""
