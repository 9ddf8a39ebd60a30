"""What scripts/walk prints, and writes into docs/ARCHITECTURE.md: each part is there between a line `<!-- printed NAME -->` and one
`<!-- printed -->`."""
from __future__ import annotations

import re
from collections.abc import Iterable

from code_text import Function
from crates_text import ROOT, Crate

from .walk import Row, Walk
from .world import World

PAGE = ROOT / "docs/ARCHITECTURE.md"
PART = re.compile(r"(^<!-- printed (?P<name>[^\n]+?) -->$\n).*?(^<!-- printed -->$)", re.M | re.S)
WIDTH = 76  # of what a row says


def about(function: Function, world: World) -> str:
    """What a function does: its first sentence, or that of the trait's method; cut where it is long."""
    asked = [it for it in world.methods[function.name] if it.is_asked and it.owner == function.trait]
    text = next((it.summary for it in [function, *asked] if it.summary), "")
    text = re.sub(r"\[(`[^`]+`)\](?:\([^)]*\))?", r"\1", text)
    if len(text) <= WIDTH:
        return text
    cut = text[: WIDTH - 2]
    return f"{cut[: max(cut.rfind(', '), cut.rfind(' '))].rstrip(',')} .."


def lines_of(walk: Walk, rows: list[Row]) -> list[str]:
    """Rows in columns: the function, its crate and file, and what it does."""
    cells = [(f"{'  ' * depth}{it.shown}", f"{it.crate}/{walk.world.files[it.path].place}", about(it, walk.world))
             for depth, it in walk.flat(rows)]
    widths = [max((len(row[column]) for row in cells), default=0) for column in (0, 1)]
    return [f"{name:{widths[0]}}  {file:{widths[1]}}  {told}".rstrip() for name, file, told in cells]


def table_of_walks(all_walks: Iterable[Walk]) -> list[str]:
    """How large each walk is."""
    rows = [f"| `scripts/walk {walk.name}` | {' | '.join(map(str, walk.figures()[:3]))} |" for walk in all_walks]
    return ["| Walk | Functions | Files | Crates |", "|---|---|---|---|", *rows]


def list_of_walks(all_walks: Iterable[Walk]) -> list[str]:
    """Which walks there are, and how many files and crates they pass through."""
    walks = list(all_walks)
    files, crates = (sorted(walk.figures()[place] for walk in walks) for place in (1, 2))
    names = [f"`{walk.name}`" for walk in walks]
    return [f"The walks {', '.join(names[:-1])} and {names[-1]} pass through {files[0]} to {files[-1]} files of {crates[0]} to {crates[-1]} crates."]


def list_of_crates(crates: dict[str, Crate]) -> list[str]:
    """Each crate with the first sentence of its lib.rt, up to a colon."""
    rows = []
    for name, crate in reversed(crates.items()):
        head = next((file.head for file in crate.code if file.place in ("lib", "main")), "")
        sentence = re.split(r"(?<=[^.\s])\.(?:\s|$)|:\s", head, maxsplit=1)[0]
        rows.append(f"- {name}: {sentence}")
    return rows


def drawing(crates: dict[str, Crate]) -> list[str]:
    """The crates by layers: each uses crates of the lines below its own."""
    layers: dict[str, int] = {}
    for name, crate in crates.items():
        layers[name] = 1 + max((layers[it] for it in crate.needs), default=-1)
    return [f"    {'  '.join(name for name in crates if layers[name] == layer)}" for layer in range(max(layers.values()), -1, -1)]


def parts(world: World, all_walks: list[Walk]) -> dict[str, list[str]]:
    """The lines of each part."""
    return {"drawing": drawing(world.crates), "crates": list_of_crates(world.crates), "figures": list_of_walks(all_walks)}


def printed_into(page: str, world: World, all_walks: list[Walk]) -> str:
    """The page with its parts as they are printed now."""
    told = parts(world, all_walks)
    names = [found["name"] for found in PART.finditer(page)]
    if sorted(names) != sorted(told):
        raise SystemExit(f"{PAGE.name}: its printed parts are {', '.join(names)}, and not {', '.join(told)}")
    return PART.sub(lambda found: "\n".join([found[1], *told[found["name"]], "", found[3]]), page)


def compared(page: str, world: World, all_walks: list[Walk]) -> list[tuple[str, bool]]:
    """Each part, and whether the page has it as it is printed now."""
    now = printed_into(page, world, all_walks)
    return [(old["name"], old[0] == new[0]) for old, new in zip(PART.finditer(page), PART.finditer(now))]
