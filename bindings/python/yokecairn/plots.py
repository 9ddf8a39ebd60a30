"""Pictures by matplotlib, which has to be installed: the nodes and tours of an instance, for `Problem.plot` in problem.py, and
lengths beside a bound, for `Comparison.plot` in compare.py."""

import importlib
import os
import textwrap
from typing import Any, Iterable, List, Sequence, Set, Tuple

from .faults import NodeError, readable

Pair = Tuple[int, int]

_BOTH, _FIRST, _SECOND, _NODE = "#555555", "#1f77b4", "#d95f02", "#222222"
# The colours of routes, one after the other: each differs from those beside it in light too.
_ROUTES = ["#1f77b4", "#e69f00", "#117733", "#cc3377", "#56b4e9", "#7a5c00", "#882255", "#44aa99", "#999933", "#332288"]
_MOST_LABELS = 60  # nodes whose numbers are drawn
_MOST_NAMES = 40  # solutions whose names are drawn
_LONGEST = 24  # characters of a name
_WIDEST, _MOST_LINES = 44, 3  # characters of a line of a title, and its lines


def _axes(ax: Any) -> Any:
    """The axes that are given, or new ones, whose figure leaves space for what is written around them."""
    return importlib.import_module("matplotlib.pyplot").subplots(layout="constrained")[1] if ax is None else ax


def _routes(problem: Any, tour: Any) -> List[Sequence[int]]:
    """The tours of what is given as one, each with the nodes in their order. Routes begin at the depot."""
    if isinstance(tour, (str, os.PathLike, bytes, bytearray)):
        read = importlib.import_module(".solution", __package__).read_solution  # (which imports this module)
        tour = read(tour, of=problem)
    given = getattr(tour, "tours", tour)
    parts: List[Any] = list(given)
    if not (parts and isinstance(parts[0], Iterable)):
        parts = [parts]
    depot = problem.depots[:1] if problem.type == "CVRP" else []
    routes: List[Sequence[int]] = [[*depot, *(int(node) for node in part)] for part in parts]
    for node in (node for route in routes for node in route):
        if not 0 < node <= (problem.dimension or 0):
            raise NodeError(f"nodes are 1 to {problem.dimension}, and this is {node}")
    return routes


def _pairs(routes: Iterable[Sequence[int]]) -> Set[Pair]:
    """The edges of tours, the lesser node first."""
    steps = ((route[at - 1], node) for route in routes for at, node in enumerate(route))
    return {(min(step), max(step)) for step in steps if step[0] != step[1]}


def plot_problem(problem: Any, tour: Any, other: Any, ax: Any) -> Any:
    """Draws the nodes and up to two tours of an instance."""
    if not problem.is_depictable():
        raise ValueError("the nodes have no places: there is neither NODE_COORD_SECTION nor DISPLAY_DATA_SECTION")
    places = {node: tuple(map(float, problem.get_display(node)[:2])) for node in problem.get_nodes()}
    routes = _routes(problem, tour) if tour is not None else []
    first = _pairs(routes)
    second = _pairs(_routes(problem, other)) if other is not None else set()
    ax = _axes(ax)
    kinds = [(first & second, _BOTH, "both", "-"), (first - second, _FIRST, "the first tour alone", "-")]
    kinds += [(second - first, _SECOND, "the second tour alone", "--")]
    if other is None:
        colours = _ROUTES if len(routes) > 1 else [_FIRST]
        kinds = [(_pairs([route]), colours[at % len(colours)], "", "-") for at, route in enumerate(routes)]
    for pairs, colour, label, style in kinds:
        if pairs:
            _draw_pairs(ax, places, sorted(pairs), colour, label, style)
    _draw_nodes(ax, places, set(problem.depots) if problem.type == "CVRP" else set())
    ax.set_aspect("equal")
    ax.set_title(_title(problem.name or ""))
    if other is not None:
        ax.legend(loc="upper center", bbox_to_anchor=(0.5, -0.1), ncol=3, frameon=False)
    return ax


def _draw_pairs(ax: Any, places: Any, pairs: Sequence[Pair], colour: str, label: str, style: str) -> None:
    """Draws edges as one line with breaks."""
    xs: List[float] = []
    ys: List[float] = []
    for pair in pairs:
        for node in pair:
            xs.append(places[node][0])
            ys.append(places[node][1])
        xs.append(float("nan"))
        ys.append(float("nan"))
    ax.plot(xs, ys, style, color=colour, label=label, linewidth=1.2, zorder=1)


def _draw_nodes(ax: Any, places: Any, depots: Set[int]) -> None:
    """Draws the nodes, and the numbers of a few."""
    others = [place for node, place in places.items() if node not in depots]
    size = 18 if len(places) <= _MOST_LABELS else max(1.0, 900 / len(places))
    ax.scatter([x for x, _ in others], [y for _, y in others], s=size, color=_NODE, zorder=2)
    squares = [places[node] for node in sorted(depots)]
    if squares:
        ax.scatter([x for x, _ in squares], [y for _, y in squares], s=60, marker="s", color=_SECOND, zorder=3)
    if len(places) <= _MOST_LABELS:
        for node, place in places.items():
            ax.annotate(str(node), place, xytext=(4, 4), textcoords="offset points", fontsize=7)


def _name(name: str) -> str:
    """The end of a name, which tells paths apart."""
    plain = readable(name)
    return plain if len(plain) <= _LONGEST else f"..{plain[2 - _LONGEST:]}"


def _title(text: str) -> str:
    """A title in lines that a picture has width for."""
    return "\n".join(textwrap.wrap(readable(text), _WIDEST)[:_MOST_LINES])


def _labels(names: Sequence[str]) -> List[str]:
    """Names without the folder that all are in."""
    begin = os.path.commonprefix(list(names)).rfind("/") + 1
    return [_name(name[begin:]) for name in names]


def plot_comparison(comparison: Any, ax: Any) -> Any:
    """Draws the lengths of accepted solutions, shortest first, beside the bound and the best-known length."""
    accepted = sorted(comparison.accepted(), key=lambda pair: int(pair[1].length))
    ax = _axes(ax)
    lengths = [report.length for _, report in accepted]
    colours = [_FIRST if report.optimal else _BOTH for _, report in accepted]
    ax.scatter(range(len(lengths)), lengths, s=24, c=colours, zorder=2)
    for value, colour, label in (
        (comparison.basis.bound, _SECOND, "bound"),
        (comparison.best, _FIRST, "best known"),
    ):
        if value is not None:
            style = "-" if label == "bound" else "--"
            ax.axhline(value, color=colour, linestyle=style, linewidth=1.2, label=f"{label} {value}", zorder=1)
    if len(accepted) <= _MOST_NAMES:
        ax.set_xticks(range(len(accepted)), _labels([name for name, _ in accepted]), rotation=45, ha="right")
    else:
        ax.set_xlabel(f"{len(accepted)} solutions, by length")
    ax.set_ylabel("length")
    ax.ticklabel_format(axis="y", useOffset=False, style="plain")
    missing = len(comparison) - len(accepted)
    ax.set_title(f"{_name(os.path.basename(comparison.instance))}{f' ({missing} not accepted)' if missing else ''}")
    if comparison.basis.bound is not None or comparison.best is not None:
        ax.legend(frameon=False)
    return ax
