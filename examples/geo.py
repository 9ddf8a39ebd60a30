#!/usr/bin/env python3
"""Writes an instance of type GEO with its distances as weights: geo.py F > OUT

The program doesn't read EDGE_WEIGHT_TYPE GEO, whose distances need cosines. This script computes them
by TSPLIB 95's formula in double precision, with PI = 3.141592. The conversion isn't proved: a `yes` for OUT is about
the weights in OUT. Lines with an unknown keyword are kept. The script needs only Python 3.9.
"""
from __future__ import annotations

import sys
from math import acos, cos

from matrix import POINTS, sections_of
from recheck import Faulty, Fields, fields_of, whole

PI = 3.141592
RADIUS = 6378.388
SECTIONS = ("DISPLAY_DATA_SECTION", "FIXED_EDGES_SECTION")


def radians(word: str) -> float:
    """The angle of a coordinate DDD.MM, degrees and minutes."""
    number = float(word)
    degrees = int(number)
    return PI * (degrees + 5.0 * (number - degrees) / 3.0) / 180.0


def distance(a: tuple[float, float], b: tuple[float, float]) -> int:
    """The distance in kilometres of two points, each a latitude and a longitude."""
    q1, q2, q3 = cos(a[1] - b[1]), cos(a[0] - b[0]), cos(a[0] + b[0])
    return int(RADIUS * acos(0.5 * ((1.0 + q1) * q2 - (1.0 - q1) * q3)) + 1.0)


def rows_of(path: str, fields: Fields, count: int) -> list[str]:
    """The distances from each node to those behind it."""
    words = fields[POINTS]
    nodes = [whole(word) for word in words[0 : 3 * count : 3]]
    if sorted(nodes) != list(range(1, count + 1)):
        raise Faulty(f"{path}: {POINTS} has to list each node from 1 to {count} once")
    points = {node: (radians(x), radians(y)) for node, x, y in zip(nodes, words[1::3], words[2::3])}
    return [" ".join(str(distance(points[i], points[j])) for j in range(i + 1, count + 1)) for i in range(1, count)]


def text_of(path: str) -> str:
    """The instance with its distances as weights."""
    fields = fields_of(path)
    kind = (fields.get("EDGE_WEIGHT_TYPE") or ["none"])[0]
    if kind != "GEO":
        raise Faulty(f"{path}: its EDGE_WEIGHT_TYPE has to be GEO, and is {kind}")
    count = whole(fields["DIMENSION"][0])
    lines = [f"NAME : {' '.join(fields['NAME'])}"] if "NAME" in fields else []
    lines += [f"TYPE : {fields['TYPE'][0]}", "COMMENT : Weights computed from GEO in doubles, not proved", *fields.unknown]
    lines += [f"DIMENSION : {count}", "EDGE_WEIGHT_TYPE : EXPLICIT", "EDGE_WEIGHT_FORMAT : UPPER_ROW", "EDGE_WEIGHT_SECTION"]
    return "\n".join([*lines, *rows_of(path, fields, count), *sections_of(fields, SECTIONS), "EOF", ""])


def main() -> None:
    if len(sys.argv) != 2 or sys.argv[1].startswith("-"):
        sys.exit("geo: usage: geo.py F > OUT")
    try:
        sys.stdout.buffer.write(text_of(sys.argv[1]).encode("latin-1"))
    except OSError as fault:
        sys.exit(f"geo: {sys.argv[1]}: {fault.strerror}")
    except Faulty as fault:
        sys.exit(f"geo: {fault}")
    except (LookupError, ValueError):
        sys.exit(f"geo: {sys.argv[1]}: this isn't an instance with points")


if __name__ == "__main__":
    main()
