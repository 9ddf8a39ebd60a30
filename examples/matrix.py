#!/usr/bin/env python3
"""Writes an instance with points as a full matrix: matrix.py F [--rounding trunc|dimacs] > OUT

The distances are computed exactly from the decimals in F. With --rounding, distances of EUC_2D are rounded down instead
of to the nearest: trunc rounds to whole units, and dimacs to tenths, so its weights are ten times as large. Lines with an
unknown keyword are kept, so that `tsp` also reports for OUT what it doesn't judge. The script isn't proved. It needs only
Python 3.9.
"""
from __future__ import annotations

import argparse
import sys
from math import isqrt
from typing import Callable, Optional, Sequence

from recheck import BILLION, Faulty, Fields, costs_of, fields_of, points_of, whole

KINDS = ("EUC_2D", "CEIL_2D", "MAN_2D", "MAX_2D", "ATT", "EUC_3D", "MAN_3D", "MAX_3D")
PARTS = {"trunc": 1, "dimacs": 10}  # of a unit
POINTS = "NODE_COORD_SECTION"
SECTIONS = ("DISPLAY_DATA_SECTION", "FIXED_EDGES_SECTION", "DEMAND_SECTION", "DEPOT_SECTION")


def sections_of(fields: Fields, kept: Sequence[str]) -> list[str]:
    """The lines of the sections that are kept. Another one than these and the points is refused."""
    for name in fields.lines:
        if name.endswith("_SECTION") and name != POINTS and name not in kept:
            raise fields.faulty(name, "this section can't be kept")
    return [line for name in kept if fields.get(name) for line in (name, " ".join(fields[name]))]


def rounded_down(fields: Fields, count: int, parts: int) -> Callable[[int, int], int]:
    """The distances in so many parts of a unit, rounded down."""
    points = points_of(fields, "EUC_2D", count)

    def distance(i: int, j: int) -> int:
        return isqrt(parts**2 * sum((a - b) ** 2 for a, b in zip(points[i], points[j]))) // BILLION

    return distance


def text_of(path: str, rounding: Optional[str]) -> str:
    """The instance as a full matrix."""
    fields = fields_of(path)
    kind = (fields.get("EDGE_WEIGHT_TYPE") or ["none"])[0]
    if kind not in KINDS:
        raise Faulty(f"{path}: its EDGE_WEIGHT_TYPE is {kind}, and no distance of points that is read here")
    if rounding and kind != "EUC_2D":
        raise Faulty(f"{path}: only distances of EUC_2D are rounded down, and its EDGE_WEIGHT_TYPE is {kind}")
    count = whole(fields["DIMENSION"][0])
    cost = rounded_down(fields, count, PARTS[rounding]) if rounding else costs_of(fields, count)
    nodes = range(1, count + 1)
    lines = [f"NAME : {' '.join(fields['NAME'])}"] if "NAME" in fields else []
    lines += [f"TYPE : {fields['TYPE'][0]}"]
    if rounding:
        lines += [f"COMMENT : Weights are {'ten times ' * (rounding == 'dimacs')}the distances, rounded down"]
    lines += [*fields.unknown, f"DIMENSION : {count}"]
    lines += [f"CAPACITY : {fields['CAPACITY'][0]}"] if "CAPACITY" in fields else []
    lines += ["EDGE_WEIGHT_TYPE : EXPLICIT", "EDGE_WEIGHT_FORMAT : FULL_MATRIX", "EDGE_WEIGHT_SECTION"]
    lines += [" ".join(str(cost(i, j)) for j in nodes) for i in nodes]
    return "\n".join([*lines, *sections_of(fields, SECTIONS), "EOF", ""])


def main() -> None:
    words = argparse.ArgumentParser(prog="matrix", description="Writes an instance with points as a full matrix.")
    words.add_argument("path", metavar="F")
    words.add_argument("--rounding", choices=sorted(PARTS), help="round distances down, to units or to tenths")
    given = words.parse_args()
    try:
        sys.stdout.buffer.write(text_of(given.path, given.rounding).encode("latin-1"))
    except OSError as fault:
        sys.exit(f"matrix: {given.path}: {fault.strerror}")
    except Faulty as fault:
        sys.exit(f"matrix: {fault}")
    except (LookupError, ValueError):
        sys.exit(f"matrix: {given.path}: this isn't an instance with points")


if __name__ == "__main__":
    main()
