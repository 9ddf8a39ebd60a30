"""The canonical text of a file, another layout, and the lines of `show`, from docs/format.md alone. Costs are those of
examples/recheck.py."""
from __future__ import annotations

import recheck
from reader import FINE, INSTANCES, SECTIONS, File, cells, lines_of

KEYWORDS = ["DIMENSION", "CAPACITY", "SCALE", "LOAD_UNIT", "EDGE_WEIGHT_TYPE", "EDGE_WEIGHT_FORMAT", "NODE_COORD_TYPE",
            "DISPLAY_DATA_TYPE"]


class Refused(Exception):
    """Why a file can't be written in a layout."""


# ---- texts


def keyword_line(keyword: str, value: object) -> bytes:
    text = value if isinstance(value, bytes) else str(value).encode()
    return f"{keyword} :".encode() + (b" " + text if text else b"") + b"\n"


def decimal(value: int) -> str:
    """A coordinate without needless zeros."""
    units, parts = divmod(abs(value), FINE)
    decimals = f".{parts:09}".rstrip("0").rstrip(".")
    return f"{'-' if value < 0 else ''}{units}{decimals}"


def section_lines(name: str, file: File) -> list[str]:
    """The number lines of a section."""
    section = file.sections[name]
    if name in ("NODE_COORD_SECTION", "DISPLAY_DATA_SECTION"):
        is_spatial = name == "NODE_COORD_SECTION" and file.spatial()
        return [" ".join([str(node), *map(decimal, section.of[node][: 3 if is_spatial else 2])]) for node in sorted(section.of)]
    if name == "EDGE_WEIGHT_SECTION":
        left = iter(section.weights)
        lines = [[str(next(left)) for _ in line] for line in lines_of(file.values["EDGE_WEIGHT_FORMAT"], file.nodes)]
        return [" ".join(line) for line in lines if line]
    if name == "TOUR_SECTION":
        return [str(word) for tour in section.tours for word in [*tour, -1]]
    if name == "COMB_SECTION":
        combs = [[" ".join(map(str, [*nodes, -1])) for nodes in family] + ["-1"] for family in section.families]
        return [line for comb in combs for line in comb] + ["-1"]
    if name == "MEMORY_SECTION":
        return [" ".join(map(str, [*nodes, -1])) for nodes in section.lists] + ["-1"]
    if name == "SUBSET_ROW_SECTION":
        return [" ".join(map(str, [*part, -1])) for row in section.rows for part in row] + ["-1"]
    if name == "BRANCH_SECTION":
        return [" ".join(map(str, words if kind == "branch" else [0, *sum(words, []), -1])) for kind, words in section.steps]
    if hasattr(section, "of"):
        return [" ".join(map(str, [node, *section.of[node]])) for node in sorted(section.of)]
    return [" ".join(map(str, entry)) for entry in section.entries] + ["-1"]


def canonical(file: File) -> bytes:
    """The canonical text."""
    text = keyword_line("NAME", file.values["NAME"]) if "NAME" in file.values else b""
    text += keyword_line("TYPE", file.type)
    text += b"".join(keyword_line("COMMENT", comment) for comment in file.comments)
    text += b"".join(keyword_line(keyword.decode("latin-1"), value) if keyword.isascii() else
                     keyword + b" :" + (b" " + value if value else b"") + b"\n" for keyword, value in file.others)
    text += b"".join(keyword_line(key, file.values[key]) for key in KEYWORDS if key in file.values)
    for name in SECTIONS:
        if name in file.sections:
            text += "".join(f"{line}\n" for line in [name, *section_lines(name, file)]).encode()
    return text + b"EOF\n"


# ---- costs


def fields_of(file: File) -> recheck.Fields:
    """A file as examples/recheck.py has it."""
    return recheck.fields_in("file", canonical(file).decode("latin-1").split("\n"))


def relaid(file: File, layout: str) -> bytes:
    """The canonical text in another layout."""
    if file.values.get("EDGE_WEIGHT_TYPE") != "EXPLICIT" or "EDGE_WEIGHT_SECTION" not in file.sections:
        raise Refused("NotExplicit")
    nodes, costs = file.nodes, recheck.costs_of(fields_of(file), file.nodes)
    if layout != "FULL_MATRIX" and (pair := recheck.uneven(costs)):
        raise Refused(f"NotSymmetric {pair[0]} {pair[1]}")
    if layout != "FULL_MATRIX" and "DIAG" not in layout:
        for node in range(1, nodes + 1):
            if costs(node, node):
                raise Refused(f"DiagonalLost {node}")
    old = file.values["EDGE_WEIGHT_FORMAT"], file.sections["EDGE_WEIGHT_SECTION"].weights
    file.values["EDGE_WEIGHT_FORMAT"] = layout
    file.sections["EDGE_WEIGHT_SECTION"].weights = [costs(i, j) for i, j in cells(layout, nodes)]
    text = canonical(file)
    file.values["EDGE_WEIGHT_FORMAT"], file.sections["EDGE_WEIGHT_SECTION"].weights = old
    return text


# ---- tsp show


def not_judged(file: File) -> bytes:
    """The lines of the unknown keywords."""
    return b"".join(b"not judged " + keyword + b"\n" for keyword, _ in file.others)


def shown(file: File) -> bytes:
    """The lines of `tsp show`."""
    values, sections, lines = file.values, file.sections, []
    text = b"name " + values["NAME"] + b"\n" if values.get("NAME") else b""
    lines.append(f"type {file.type}")
    if "DIMENSION" in values:
        lines.append(f"nodes {file.nodes}")
    if file.type in INSTANCES:
        kind = values["EDGE_WEIGHT_TYPE"]
        lines.append(f"weights {kind}" + (f" {values['EDGE_WEIGHT_FORMAT']}" if kind == "EXPLICIT" else ""))
        costs = recheck.costs_of(fields_of(file), file.nodes)
        lines.append(f"canonical {recheck.around(list(range(1, file.nodes + 1)), costs)}")
        if "FIXED_EDGES_SECTION" in sections:
            lines.append(f"fixed {len(sections['FIXED_EDGES_SECTION'].entries)}")
    if file.type == "TOUR":
        tours = sections["TOUR_SECTION"].tours
        lines += [f"tours {len(tours)}", *(f"tour {number} nodes {len(tour)}" for number, tour in enumerate(tours, 1))]
    if file.type in ("POTENTIALS", "BRANCHES"):
        lines.append(f"scale {values.get('SCALE', 1)}")
    if file.type == "BRANCHES":
        if "LOAD_UNIT" in values:
            lines.append(f"load unit {values['LOAD_UNIT']}")
        if "COMB_SECTION" in sections:
            lines.append(f"combs {len(sections['COMB_SECTION'].families)}")
        if "MEMORY_SECTION" in sections:
            lines.append(f"memory {len(sections['MEMORY_SECTION'].lists)}")
        if "SUBSET_ROW_SECTION" in sections:
            lines.append(f"rows {len(sections['SUBSET_ROW_SECTION'].rows)}")
        lines.append(f"leaves {sum(kind == 'leaf' for kind, _ in sections['BRANCH_SECTION'].steps)}")
    return text + "".join(f"{line}\n" for line in lines).encode() + not_judged(file)
