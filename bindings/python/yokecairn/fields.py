"""The canonical text of a file as Python's values, and values as a text.

The library answers whether a text is a file, and writes its canonical text (docs/format.md, "The
canonical text"). That grammar is small: keyword lines, then sections of whole numbers and decimals in a
fixed order. It is all that is parsed here. For problem.py.
"""

import re
from decimal import Decimal
from typing import Any, Callable, Dict, Iterable, Iterator, List, Mapping, Sequence, Tuple, Union

from .faults import text_of

Step = Union[Tuple[int, int], List[Tuple[int, int]]]

# The names of fields, and their keywords or sections, in canonical order. COMMENT and unknown keywords
# may have several lines.
KEYWORDS = {
    "name": "NAME",
    "type": "TYPE",
    "comment": "COMMENT",
    "dimension": "DIMENSION",
    "capacity": "CAPACITY",
    "scale": "SCALE",
    "load_unit": "LOAD_UNIT",
    "edge_weight_type": "EDGE_WEIGHT_TYPE",
    "edge_weight_format": "EDGE_WEIGHT_FORMAT",
    "node_coord_type": "NODE_COORD_TYPE",
    "display_data_type": "DISPLAY_DATA_TYPE",
}
SECTIONS = {
    "node_coords": "NODE_COORD_SECTION",
    "display_data": "DISPLAY_DATA_SECTION",
    "demands": "DEMAND_SECTION",
    "depots": "DEPOT_SECTION",
    "fixed_edges": "FIXED_EDGES_SECTION",
    "edge_weights": "EDGE_WEIGHT_SECTION",
    "tours": "TOUR_SECTION",
    "node_potentials": "NODE_POTENTIAL_SECTION",
    "row_potentials": "ROW_POTENTIAL_SECTION",
    "column_potentials": "COLUMN_POTENTIAL_SECTION",
    "fixed_edge_potentials": "FIXED_EDGE_POTENTIAL_SECTION",
    "combs": "COMB_SECTION",
    "memories": "MEMORY_SECTION",
    "subset_rows": "SUBSET_ROW_SECTION",
    "branches": "BRANCH_SECTION",
}
WHOLE = ("dimension", "capacity", "scale", "load_unit")
# The fields that an instance of any TYPE uses, or that are only for display.
USED = (
    "NAME",
    "TYPE",
    "COMMENT",
    "DIMENSION",
    "EDGE_WEIGHT_TYPE",
    "NODE_COORD_TYPE",
    "DISPLAY_DATA_TYPE",
    "NODE_COORD_SECTION",
    "DISPLAY_DATA_SECTION",
    "FIXED_EDGES_SECTION",
)

_NAMES = {keyword: name for name, keyword in KEYWORDS.items()}
_LETTER = re.compile(rb"\n(?=[A-Za-z])")


def head_of(text: bytes) -> Tuple[Dict[str, Any], List[Tuple[str, str]], int]:
    """The fields of the keyword lines, the lines of unknown keywords, and where the sections begin."""
    fields: Dict[str, Any] = {}
    others: List[Tuple[str, str]] = []
    comments: List[str] = []
    start = 0
    while True:
        end = text.index(b"\n", start)
        keyword, colon, value = text[start:end].partition(b" :")
        if not colon:
            break
        word, rest = text_of(keyword), text_of(value[1:])
        name = _NAMES.get(word)
        if name is None:
            others.append((word, rest))
        elif name == "comment":
            comments.append(rest)
        else:
            fields[name] = int(rest) if name in WHOLE else rest
        start = end + 1
    if comments:
        fields["comment"] = "\n".join(comments)
    return fields, others, start


def sections_of(text: bytes, start: int) -> Dict[str, Tuple[int, int]]:
    """Where the number lines of each section begin and end."""
    found: Dict[str, Tuple[int, int]] = {}
    while True:
        end = text.index(b"\n", start)
        section = text[start:end].decode()
        if section == "EOF":
            return found
        after = _LETTER.search(text, end)
        assert after is not None  # the line EOF
        found[section] = (end + 1, after.start() + 1)
        start = after.start() + 1


def _lines(text: bytes) -> Iterator[List[bytes]]:
    return (line.split() for line in text.split(b"\n") if line)


def _groups(text: bytes, kind: Callable[[str], Any]) -> Dict[int, List[Any]]:
    """The numbers of each node. All lines have as many words, so they are read by columns."""
    width = len(text[: text.find(b"\n")].split()) or 1
    words = text.decode().split()
    columns = [map(kind, words[place::width]) for place in range(1, width)]
    return dict(zip(map(int, words[::width]), map(list, zip(*columns))))


def points(text: bytes) -> Dict[int, List[Decimal]]:
    """The coordinates of each node, exactly."""
    return _groups(text, Decimal)


def float_points(text: bytes) -> Dict[int, List[float]]:
    """The coordinates of each node, each the nearest float."""
    return _groups(text, float)


def by_node(text: bytes) -> Dict[int, int]:
    """A number of each node."""
    words = text.split()
    return dict(zip(map(int, words[::2]), map(int, words[1::2])))


def depots(text: bytes) -> List[int]:
    """Nodes, one in each line, without the -1 that ends them."""
    return [int(node) for node in text.split()[:-1]]


def groups(text: bytes) -> List[Tuple[int, ...]]:
    """Pairs or triples, one in each line, without the -1 that ends them."""
    return [tuple(map(int, words)) for words in _lines(text) if len(words) > 1]


def rows(text: bytes) -> List[List[int]]:
    """Weights, as many in each row as the layout has."""
    return [[int(it) for it in words] for words in _lines(text)]


def runs(words: Iterable[bytes]) -> List[List[int]]:
    """Runs of nodes, each of which a -1 ends."""
    found: List[List[int]] = [[]]
    for word in words:
        if word == b"-1":
            found.append([])
        else:
            found[-1].append(int(word))
    return found[:-1]


def tours(text: bytes) -> List[List[int]]:
    """The tours, each a list of nodes."""
    return runs(text.split())


def combs(text: bytes) -> List[List[List[int]]]:
    """The combs, each a list of sets of nodes, its handle first."""
    found: List[List[List[int]]] = [[]]
    for group in runs(text.split()):
        if group:
            found[-1].append(group)
        else:
            found.append([])
    return [comb for comb in found if comb]


def memories(text: bytes) -> List[List[int]]:
    """Lists of a customer and of those that it remembers."""
    return runs(text.split())[:-1]


def subset_rows(text: bytes) -> List[Tuple[List[int], List[int]]]:
    """The subset rows, each its set and the further customers that keep it."""
    parts = runs(text.split())[:-1]
    return list(zip(parts[::2], parts[1::2]))


def steps(text: bytes) -> List[Step]:
    """The steps of a tree: a branch is a pair of nodes, a leaf a list of pairs (index, difference)."""
    found: List[Step] = []
    for words in _lines(text):
        numbers = [int(it) for it in words]
        if numbers[0] == 0:
            found.append(list(zip(numbers[1:-1:2], numbers[2:-1:2])))
        else:
            found.append((numbers[0], numbers[1]))
    return found


READERS: Dict[str, Callable[[bytes], Any]] = {
    "node_coords": points,
    "display_data": points,
    "demands": by_node,
    "depots": depots,
    "fixed_edges": groups,
    "edge_weights": rows,
    "tours": tours,
    "node_potentials": by_node,
    "row_potentials": by_node,
    "column_potentials": by_node,
    "fixed_edge_potentials": groups,
    "combs": combs,
    "memories": memories,
    "subset_rows": subset_rows,
    "branches": steps,
}


def _spelled(number: Any) -> str:
    """A number as a word. A float is spelled by the fewest digits that mean it."""
    return format(number, "f") if isinstance(number, Decimal) else str(number)


def _of_nodes(name: str, section: Mapping[int, Any]) -> Iterator[List[Any]]:
    if not isinstance(section, Mapping):
        more = ": Problem.from_points takes lists and arrays" if name == "node_coords" else ""
        raise TypeError(f"{name} has a value by node, and this is of type {type(section).__name__}{more}")
    for node, values in section.items():
        yield [node, *values] if isinstance(values, Sequence) else [node, values]


def _of_sets(section: Iterable[Iterable[Iterable[int]]]) -> Iterator[List[Any]]:
    for comb in section:
        yield from ([*nodes, -1] for nodes in comb)
        yield [-1]
    yield [-1]


def _of_rows(section: Iterable[Tuple[Iterable[int], Iterable[int]]]) -> Iterator[List[Any]]:
    for nodes, further in section:
        yield from ([*nodes, -1], [*further, -1])
    yield [-1]


def _of_steps(section: Iterable[Step]) -> Iterator[List[Any]]:
    for step in section:
        if isinstance(step, tuple):
            yield list(step)
        else:
            yield [0, *(number for pair in step for number in pair), -1]


def _section_lines(name: str, section: Any) -> Iterator[List[Any]]:
    """The number lines of a section."""
    if name == "tours":
        for tour in section:
            yield from ([node] for node in (*tour, -1))
    elif name == "depots":
        yield from ([node] for node in (*section, -1))
    elif name in ("fixed_edges", "fixed_edge_potentials"):
        yield from section
        yield [-1]
    elif name == "edge_weights":
        yield from section
    elif name == "combs":
        yield from _of_sets(section)
    elif name == "memories":
        yield from ([*nodes, -1] for nodes in section)
        yield [-1]
    elif name == "subset_rows":
        yield from _of_rows(section)
    elif name == "branches":
        yield from _of_steps(section)
    else:
        yield from _of_nodes(name, section)


def _value_lines(keyword: str, value: Any) -> Iterator[str]:
    parts = str(value).split("\n")
    if len(parts) > 1 and keyword != "COMMENT":
        raise ValueError(f"{keyword} has one line")
    return (f"{keyword} : {part}" for part in parts)


def text_of_fields(fields: Mapping[str, Any], others: Iterable[Tuple[str, str]]) -> bytes:
    """A text with these fields. Whether it is a file is the library's matter."""
    lines: List[str] = []
    for name, keyword in KEYWORDS.items():
        if fields.get(name) is not None:
            lines += _value_lines(keyword, fields[name])
    for keyword, value in others:
        lines += _value_lines(keyword, value)
    for name, section in SECTIONS.items():
        if fields.get(name) is not None:
            lines.append(section)
            try:
                lines += [" ".join(map(_spelled, words)) for words in _section_lines(name, fields[name])]
            except TypeError as fault:
                if name in str(fault):
                    raise
                raise TypeError(f"{name} has another form: {fields[name]!r:.60}") from fault
    return "\n".join([*lines, "EOF", ""]).encode("utf-8", "surrogateescape")
