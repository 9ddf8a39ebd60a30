"""What the recipes of examples/recipes have to write, and what they have to refuse. Worked out by hand.

tests/pages/recipes runs them, as the suite `recipes` of ./check.
"""
from __future__ import annotations

from typing import NamedTuple


class Written(NamedTuple):
    """A recipe's text: the words of awk before the file, the file with its text where it is no example, and what has
    to be written."""

    words: str
    file: str
    wanted: str
    text: str = ""


class Refused(NamedTuple):
    """A text that a recipe refuses, a part of the line that it says then, and words of awk before the recipe's."""

    recipe: str
    text: str
    said: str
    words: str = ""


def lines(*words: object) -> str:
    """A text of these lines."""
    return "".join(f"{word}\n" for word in words)


def potentials(scale: int, dimension: int, *rows: str) -> str:
    """A file of TYPE POTENTIALS."""
    return lines(
        "TYPE : POTENTIALS", f"SCALE : {scale}", f"DIMENSION : {dimension}", "NODE_POTENTIAL_SECTION", *rows, "EOF"
    )


WRITTEN = [
    Written("-f examples/recipes/lkh-pi.awk", "examples/solvers/harbour.lkh.pi",
            potentials(100, 8, "1 0", "2 -4", "3 297", "4 -103", "5 -196", "6 3", "7 -2", "8 105")),
    Written("-v scale=10 -f examples/recipes/lkh-pi.awk", "three-node.pi", potentials(10, 3, "2 -7", "1 0", "3 12"),
            "3\n2 -7\n1 0\n3 12\n-1\nEOF\n"),
    Written("-f examples/recipes/tidy.awk", "small.vrp",
            lines("NAME : x y", "TYPE : CVRP", "DIMENSION : 3", "EDGE_WEIGHT_TYPE : EUC_2D", "NODE_COORD_SECTION", "1 0.0 5",
                  "2 3 4", "3 1 245.0", "DEMAND_SECTION", "1 0", "2 1", "3 1", "DEPOT_SECTION", "1", "-1", "EOF"),
            "name : x y\ntype : cvrp\nDimension: 3\nedge_weight_type : euc_2d\nnode_coord_section\n1 0.0 5\n2 3 4\n3 1 245.0\n"
            "demand_section\n1 0\n2 1\n3 1\ndepot_section\n 0.0 5.0\n -1\neof\n"),
    Written("-f examples/recipes/tidy.awk", "ends-early",
            lines("DIMENSION : 2", "NODE_COORD_SECTION", "1 0 0", "2 3 245.0", "EOF"),
            "DIMENSION : 2\nNODE_COORD_SECTION\n1 0 0\n2 3 245.0 EOF\n"),
    Written("-f examples/recipes/tidy.awk", "two-depots",
            lines("NODE_COORD_SECTION", "1 1 2", "2 1 2", "DEPOT_SECTION", "1", "2", "-1", "EOF"),
            "NODE_COORD_SECTION\n1 1 2\n2 1 2\nDEPOT_SECTION\n1 2 -1\nEOF\n"),
    Written("-f examples/recipes/tidy.awk", "unknown-keywords",
            lines("NODE_COORD_SECTION", "1 1 2", "2 5 2", "DEPOT_SECTION", "1", "-1", "DISTANCE : 5", "CAPACITY : 3", "vehicles : 2", "EOF"),
            "NODE_COORD_SECTION\n1 1 2\n2 5 2\nDEPOT_SECTION\n1\nDISTANCE : 5\nCAPACITY : 3\nvehicles : 2\nEOF\n"),
    # 30 and 32 are no nodes of an instance with two.
    Written("-f examples/recipes/tidy.awk", "whole-coordinates",
            lines("NODE_COORD_SECTION", "1 30 32", "2 1 2", "DEPOT_SECTION", "1", "-1", "EOF"),
            "NODE_COORD_SECTION\n1 30 32\n2 1 2\nDEPOT_SECTION\n30 32\n-1\nEOF\n"),
]

REFUSED = [
    Refused("lkh-pi", "", "the first line says 0 nodes, and 0 follow"),
    Refused("lkh-pi", "2\n1 0\n-1\n", "the first line says 2 nodes, and 1 follow"),
    Refused("lkh-pi", "2\n1 0\n1 3\n", "line 3: node 1 comes twice"),
    Refused("lkh-pi", "2\n1 0.5\n", "line 2: a node and its number are wanted: 1 0.5"),
    Refused("lkh-pi", "2\n1 \x1b[2J\n", "line 2: a node and its number are wanted: 1 ^[[2J"),
    Refused("lkh-pi", "2\n3 1\n", "line 2: nodes are 1 to 2: 3 1"),
    Refused("lkh-pi", "1\n1 0\n", "the scale is a whole number from 1 on", "-v scale=0"),
    Refused("tidy", "NODE_COORD_SECTION\n1 0 0\nDEPOT_SECTION\n5 0.5\n-1\n", "line 4: DEPOT_SECTION has coordinates, and they are"),
    Refused("tidy", "NODE_COORD_SECTION\n1 0 0\n2 0 0\nDEPOT_SECTION\n0 0\n-1\n", "several nodes: 1 2"),
]
