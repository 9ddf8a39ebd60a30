#!/usr/bin/env python3
"""Multiplies the coordinates of an instance by a power of ten, or rounds them: scale.py F --by 1000 > OUT

TSPLIB's distances are whole numbers. Between points that are close to each other, as in a unit square, they are
0 or 1, and mean little; multiply the coordinates first. OUT is another instance, so publish its lengths with the
factor, which a COMMENT in OUT names. Everything else stays as it is, including the NAME. Coordinates are multiplied
exactly. Like `tsp`, the script refuses more than nine decimals; `--decimals 9` rounds to nine, with or without
`--by`. It needs only Python 3.9, imports recheck.py, and isn't proved.
"""
from __future__ import annotations

import argparse
import decimal
import sys
from decimal import Decimal
from typing import Iterator, Optional

from recheck import DISTANCES, Faulty, Fields, dimension_of, fields_of

SECTION = "NODE_COORD_SECTION"
FINEST = Decimal("1e-9")
decimal.getcontext().prec = 400  # of the 64 bytes of a word each digit counts


class TooFine(ValueError):
    """A coordinate has more decimals than count."""


def power_of(word: str) -> int:
    """The exponent of a power of ten: 3 of 1000."""
    number = Decimal(word)
    power = number.adjusted()
    if number != Decimal(1).scaleb(power) or not 0 < power <= 18:
        raise ValueError(word)
    return power


def scaled(word: str, power: int, decimals: Optional[int]) -> str:
    """A coordinate, multiplied."""
    number = Decimal(word).scaleb(power)
    if decimals is not None:
        number = number.quantize(Decimal(1).scaleb(-decimals), decimal.ROUND_HALF_EVEN)
    elif number != number.quantize(FINEST):
        raise TooFine(f"{plain(number)} would be TooFine: add --decimals 9")
    return plain(number)


def plain(number: Decimal) -> str:
    """A number without an exponent."""
    text = f"{number:f}"
    return (text.rstrip("0").rstrip(".") if "." in text else text) or "0"


def points_of(fields: Fields, power: int, decimals: Optional[int]) -> Iterator[str]:
    """The lines of the points."""
    kind, words = (fields["EDGE_WEIGHT_TYPE"] or ["none"])[0], fields[SECTION]
    if kind not in DISTANCES:
        raise fields.faulty("EDGE_WEIGHT_TYPE", f"{kind} is no distance that grows with the coordinates")
    space = kind.endswith("_3D") or fields.get("NODE_COORD_TYPE", [""])[0] == "THREED_COORDS"
    group, count = 4 if space else 3, dimension_of(fields)
    if len(words) < group * count:
        raise fields.faulty(SECTION, f"{count} nodes are wanted", max(0, len(words) - 1))
    for at in range(0, group * count, group):
        try:
            yield " ".join([words[at], *(scaled(word, power, decimals) for word in words[at + 1 : at + group])])
        except TooFine as fault:
            raise fields.faulty(SECTION, str(fault), at) from None
        except ArithmeticError:
            raise fields.faulty(SECTION, "a node and its coordinates are wanted", at) from None


def lines_of(path: str, power: int, decimals: Optional[int]) -> Iterator[str]:
    """The lines of the instance with other points."""
    points = list(points_of(fields_of(path), power, decimals))
    changes = [f"multiplied by {10**power}"] if power else []
    changes += [] if decimals is None else [f"rounded to {decimals} decimals"]
    is_inside = False
    with open(path, encoding="latin-1", newline="\n") as file:
        for line in file:
            line = line.rstrip("\r\n")
            if line.strip()[:1].isalpha():
                is_inside = line.strip().startswith(SECTION)
                if is_inside:
                    yield f"COMMENT : Coordinates {', '.join(changes)}"
                    yield from (line, *points)
                    continue
            if not is_inside:
                yield line


def main() -> None:
    words = argparse.ArgumentParser(description="Multiplies the coordinates of an instance by a power of ten.")
    words.add_argument("instance", metavar="F", help="an instance with points")
    words.add_argument("--by", metavar="N", help="10, 100, .. up to 10^18")
    words.add_argument("--decimals", type=int, metavar="D", help="round to so many decimals, 0 to 9")
    given = words.parse_args()
    if given.by is None and given.decimals is None:
        words.error("--by or --decimals is wanted")
    try:
        power = 0 if given.by is None else power_of(given.by)
    except (ArithmeticError, ValueError):
        words.error(f"--by is a power of ten from 10 on, and this is none: {given.by}")
    if given.decimals is not None and not 0 <= given.decimals <= 9:
        words.error("--decimals is 0 to 9")
    try:
        text = "\n".join(lines_of(given.instance, power, given.decimals))
    except OSError as fault:
        sys.exit(f"scale: {given.instance}: {fault.strerror}")
    except Faulty as fault:
        sys.exit(f"scale: {fault}")
    sys.stdout.buffer.write(f"{text}\n".encode("latin-1"))


if __name__ == "__main__":
    main()
