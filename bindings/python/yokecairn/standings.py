"""`Table`: what comes of several solvers on many instances, as a text and for other programs."""

import html
import importlib
import json
import re
from typing import Any, Dict, Iterable, List, Mapping, NamedTuple, Optional, Sequence, Tuple

from .compare import Basis, cells_of, csv_of, put, said_of
from .faults import readable
from .problem import Path
from .report import Outcome, Report

COLUMNS = (
    "instance",
    "solver",
    "verdict",
    "length",
    "rank",
    "best",
    "best_percent",
    "bound",
    "gap",
    "gap_percent",
    "routes",
    "runs",
    "accepted",
    "mean",
    "mean_best_percent",
    "mean_gap_percent",
    "worst",
    "seconds",
    "detail",
)
_ACCEPTED = ("optimal", "yes")
_WHOLE = ("length", "rank", "best", "bound", "gap", "routes", "runs", "accepted", "worst")
_REAL = ("best_percent", "gap_percent", "mean", "mean_best_percent", "mean_gap_percent", "seconds")

# A run: its solver, its instance and its name, which is empty for the only one.
Place = Tuple[str, str, str]


class Standing(NamedTuple):
    """What comes of the solutions of an instance, by their solvers and runs, and what is known of all. Where the instance or
    the certificate is faulty, `fault` says so. `name` is the instance's NAME."""

    basis: Optional[Basis]
    best: Optional[int]
    outcomes: Dict[Tuple[str, str], Outcome]
    fault: Optional[Exception] = None
    name: str = ""


class Table:
    """The results of each solver on each instance. Printed, and in a notebook, it is a table of lengths.

    If a solver has several runs on an instance, its length is the shortest accepted one. The shortest length on an
    instance has rank 1, and equal lengths share a rank. A solver without an accepted solution has the last rank, which is
    the number of solvers.

    Attributes:
        instances, solvers: their names, in order.
    """

    def __init__(self, found: Mapping[str, Standing], solvers: Iterable[str], seconds: Mapping[Place, float]) -> None:
        self._found = dict(found)
        self._seconds = dict(seconds)
        self.instances = sorted(self._found)
        self.solvers = sorted(solvers)

    def __getitem__(self, place: Tuple[str, str]) -> Optional[Outcome]:
        """What came of a solver on an instance: `table["harbour8", "lkh"]`; None if it has no solution. Of several runs
        it is the shortest accepted one, or else the first."""
        outcomes = list(self.runs(*place).values())
        accepted = [it for it in outcomes if isinstance(it, Report) and it.yes]
        if accepted:
            return min(accepted, key=lambda it: it.length or 0)
        return outcomes[0] if outcomes else None

    def runs(self, instance: str, solver: str) -> Dict[str, Outcome]:
        """What came of each run of a solver on an instance, by its name: `run1` of `harbour.run1.tour`."""
        outcomes = self._found[instance].outcomes
        return {run: outcomes[own, run] for own, run in sorted(outcomes) if own == solver}

    def length(self, instance: str, solver: str) -> Optional[int]:
        """The length of the shortest accepted solution; None if there is none."""
        outcome = self[instance, solver]
        return outcome.length if isinstance(outcome, Report) and outcome.yes else None

    def rank(self, instance: str, solver: str) -> int:
        """The rank of a solver on an instance."""
        own = self.length(instance, solver)
        if own is None:
            return len(self.solvers)
        lengths = (self.length(instance, other) for other in self.solvers)
        return 1 + sum(length is not None and length < own for length in lengths)

    def as_rows(self) -> List[Dict[str, Any]]:
        """A row for each instance and solver, with the columns of `COLUMNS`. What isn't known is None.

        `verdict` is `optimal`, `yes`, `no`, `fault`, `unread`, or `missing` if a solver has no solution; of several runs
        it is that of the shortest accepted one. `detail` has what is wrong with all others.
        """
        return [self._row(instance, solver) for instance in self.instances for solver in self.solvers]

    def _row(self, instance: str, solver: str) -> Dict[str, Any]:
        basis, best, _, fault, _ = self._found[instance]
        runs = self.as_runs(instance, solver)
        accepted = [row for row in runs if row["verdict"] in _ACCEPTED]
        row: Dict[str, Any] = dict.fromkeys(COLUMNS)
        row.update(instance=instance, solver=solver, best=best, rank=self.rank(instance, solver))
        row.update(runs=len(runs), accepted=len(accepted), bound=None if basis is None else basis.bound)
        row["seconds"] = _mean([it["seconds"] for it in runs])
        row["detail"] = "; ".join(_of_run(it["run"], it["detail"]) for it in runs if it["detail"]) or None
        if not runs:
            return {**row, "verdict": "missing", "detail": None if fault is None else said_of(fault)}
        if not accepted:
            return {**row, "verdict": runs[0]["verdict"]}
        first = min(accepted, key=lambda it: int(it["length"]))
        means = {"mean": "length", "mean_best_percent": "best_percent", "mean_gap_percent": "gap_percent"}
        row.update({name: first[name] for name in ("verdict", "length", "best_percent", "gap", "gap_percent", "routes")})
        row.update({name: _mean([it[column] for it in accepted]) for name, column in means.items()})
        return {**row, "worst": max(it["length"] for it in accepted)}

    def as_runs(self, instance: str, solver: str) -> List[Dict[str, Any]]:
        """A row for each run of a solver on an instance: its name (`run`), what came of it, and its seconds."""
        best = self._found[instance].best
        rows = []
        for run, outcome in self.runs(instance, solver).items():
            names = ("verdict", "length", "best_percent", "gap", "gap_percent", "routes", "detail")
            row: Dict[str, Any] = {"run": run, **dict.fromkeys(names), **cells_of(outcome, best)}
            rows.append({**row, "seconds": self._seconds.get((solver, instance, run))})
        return rows

    def rejected(self) -> List[Tuple[str, str, str]]:
        """The instance, the solver and what is wrong, of each run that isn't accepted, and of each that is missing."""
        found = []
        for instance in self.instances:
            for solver in self.solvers:
                runs = self.as_runs(instance, solver)
                found += [(instance, solver, _of_run(it["run"], it["detail"])) for it in runs if it["verdict"] not in _ACCEPTED]
                if not runs:
                    found.append((instance, solver, self._row(instance, solver)["detail"] or "missing"))
        return found

    def as_sums(self) -> List[Dict[str, Any]]:
        """A row for each solver: on how many instances a solution is `accepted`, of how many (`of`), on how many it is the
        shortest (`first`), and the means of its ranks, of its seconds, and of the percents over the best-known length and
        the bound, by the best and the mean of its runs."""
        names = ("best_percent", "gap_percent", "mean_best_percent", "mean_gap_percent", "seconds")
        sums = []
        for solver in self.solvers:
            rows = [self._row(instance, solver) for instance in self.instances]
            own = [row for row in rows if row["verdict"] in _ACCEPTED]
            means = {name: _mean([row[name] for row in own]) for name in names}
            first = sum(row["rank"] == 1 for row in own)
            rank = _mean([row["rank"] for row in rows])
            sums.append({"solver": solver, "accepted": len(own), "of": len(rows), "first": first, "rank": rank, **means})
        return sums

    # ---- as a text, and for other programs

    def _grid(self) -> List[List[str]]:
        """The cells of the table: a line of names, one for each instance, and those of sums."""
        grid = [["instance", "best", "bound", *self.solvers]]
        for instance in self.instances:
            basis, best, *_ = self._found[instance]
            known = ["" if it is None else str(it) for it in (best, None if basis is None else basis.bound)]
            grid.append([instance, *known, *(self._cell(instance, solver) for solver in self.solvers)])
        sums = self.as_sums()
        has_runs = any(row["runs"] > 1 for row in self.as_rows())
        for name, told in (
            ("accepted", [f"{row['accepted']} of {row['of']}" for row in sums]),
            ("shortest", [str(row["first"]) for row in sums]),
            ("mean rank", [f"{row['rank']:.2f}" for row in sums]),
            ("mean % over best", [_decimals(row["best_percent"]) for row in sums]),
            ("mean % over best, all runs", [_decimals(row["mean_best_percent"]) for row in sums if has_runs]),
            ("mean % over bound", [_decimals(row["gap_percent"]) for row in sums]),
            ("mean % over bound, all runs", [_decimals(row["mean_gap_percent"]) for row in sums if has_runs]),
            ("mean seconds", [_decimals(row["seconds"], 2) for row in sums]),
        ):
            if any(told):
                grid.append([name, "", "", *told])
        used = [any(row[at] for row in grid[1:]) or at == 0 for at in range(len(grid[0]))]
        return [[cell for cell, is_used in zip(row, used) if is_used] for row in grid]

    def _cell(self, instance: str, solver: str) -> str:
        """The length, with the percent over the best-known length, or else over the bound; of several runs also the mean, the
        worst, and how many are accepted."""
        row = self._row(instance, solver)
        if row["length"] is None:
            return "-" if row["verdict"] == "missing" else "no"
        over = row["gap_percent"] if row["best"] is None else row["best_percent"]
        told = f"{row['length']}" + ("" if over is None else f" {over:+.2f} %") + ("*" if row["verdict"] == "optimal" else "")
        if row["runs"] == 1:
            return told
        return f"{told}, mean {row['mean']:.2f}, worst {row['worst']}, {row['accepted']} of {row['runs']} runs"

    def _above(self) -> List[str]:
        """What is said above the table: each that isn't accepted, with its reason, what isn't judged of an instance, which have
        no best-known length where others have one, or one below their bound, and which times are of no solution."""
        told = [f"not accepted: {instance}, {solver}: {why}" for instance, solver, why in self.rejected()]
        bases = ((instance, self._found[instance].basis) for instance in self.instances)
        told += [f"not judged of {instance}: {', '.join(it.not_judged)}" for instance, it in bases if it and it.not_judged]
        unknown = [name for name in self.instances if self._found[name].best is None and self._found[name].fault is None]
        is_known = any(it.best is not None for it in self._found.values())
        told += [f"no best-known length has the NAME of {name}{self._own_name(name)}" for name in unknown if is_known]
        return [*told, *self._below_bound(), *self._times_alone()]

    def _own_name(self, instance: str) -> str:
        """The NAME of an instance behind a comma, as a line of best-known lengths has to begin with it."""
        own = self._found[instance].name
        return f", {readable(own)}" if own else ""

    def _below_bound(self) -> Iterable[str]:
        """Which best-known lengths no solution can have."""
        for name in self.instances:
            basis, best, *_ = self._found[name]
            bound = None if basis is None else basis.bound
            if best is not None and bound is not None and best < bound:
                yield f"no solution of {name} has the best-known length {best}: the bound {bound} is above it"

    def _times_alone(self) -> Iterable[str]:
        """Which times are of a run whose solution isn't there, where the solver has others of the instance."""
        for solver, instance, run in sorted(self._seconds):
            runs = self.runs(instance, solver)
            if runs and run not in runs:
                yield f"no solution has the time of {instance}, {solver}, {f'run {run}' if run else 'without a run'}"

    def __str__(self) -> str:
        grid = self._grid()
        wide = [max(map(len, column)) for column in zip(*grid)]
        lines = []
        for row in grid:
            parts = [it.rjust(width) if at else it.ljust(width) for at, (it, width) in enumerate(zip(row, wide))]
            lines.append("  ".join(parts).rstrip())
        return "\n".join([*self._above(), *lines])

    def as_dict(self) -> Dict[str, Any]:
        """All of it as numbers, texts and lists that `json.dumps` takes, by the schema in standings.schema.json."""
        instances = []
        for name in self.instances:
            basis, best, _, fault, _ = self._found[name]
            known: Dict[str, Any] = {"type": None, "nodes": None, "bound": None, "not_judged": []}
            if basis is not None:
                known = {"type": basis.type, "nodes": basis.nodes, "bound": basis.bound, "not_judged": list(basis.not_judged)}
            instances.append({"instance": name, "best": best, **known, "fault": None if fault is None else said_of(fault)})
        rows = [{**row, "each": self.as_runs(row["instance"], row["solver"])} for row in self.as_rows()]
        return {"instances": instances, "solvers": self.as_sums(), "rows": rows}

    def to_json(self, path: Optional[Path] = None) -> Optional[str]:
        """Writes `as_dict()` to a path; or returns that text."""
        return put(json.dumps(self.as_dict(), indent=1) + "\n", path)

    def to_csv(self, path: Optional[Path] = None) -> Optional[str]:
        """Writes the rows to a path, below a line with the names of the columns; or returns that text."""
        return put(csv_of(self.as_rows(), ",", COLUMNS, _REAL), path)

    def to_markdown(self, path: Optional[Path] = None) -> Optional[str]:
        """Writes the table in Markdown to a path, below what isn't accepted; or returns that text."""
        head, *rows = ([re.sub(r"([\\|*_`<\[])", r"\\\1", readable(cell)) for cell in row] for row in self._grid())
        above = [f"- {line}" for line in map(readable, self._above())]
        lines = [head, ["---", *["---:"] * (len(head) - 1)], *rows]
        return put("\n".join([*above, *[""] * bool(above), *(f"| {' | '.join(row)} |" for row in lines), ""]), path)

    def to_latex(self, path: Optional[Path] = None) -> Optional[str]:
        """Writes the table as a `tabular` of LaTeX to a path, with what isn't accepted in comments above; or returns that
        text."""
        head, *rows = ([_latex(cell) for cell in row] for row in self._grid())
        begin = f"\\begin{{tabular}}{{l{'r' * (len(head) - 1)}}}"
        above = [f"% {line}" for line in self._above()]
        lines = [f"{' & '.join(row)} \\\\" for row in rows]
        count = len(self.instances)
        body = [begin, "\\hline", f"{' & '.join(head)} \\\\", "\\hline", *lines[:count], "\\hline", *lines[count:], "\\hline"]
        return put("\n".join([*above, *body, "\\end{tabular}", ""]), path)

    def to_html(self, path: Optional[Path] = None) -> Optional[str]:
        """Writes the table as HTML to a path, below what isn't accepted; or returns that text."""

        def line(tag: str, row: List[str]) -> str:
            return "<tr>" + "".join(f"<{tag}>{html.escape(readable(it))}</{tag}>" for it in row) + "</tr>"

        head, *rows = self._grid()
        above = "".join(f"<li>{html.escape(readable(it))}</li>" for it in self._above())
        body = "\n".join(line("td", row) for row in rows)
        listed = f"<ul>{above}</ul>\n" if above else ""
        return put(f"{listed}<table>\n<thead>{line('th', head)}</thead>\n<tbody>\n{body}\n</tbody>\n</table>\n", path)

    def _repr_html_(self) -> str:
        return self.to_html() or ""

    def to_dataframe(self) -> Any:
        """The rows as a DataFrame of pandas, which has to be installed.

        Raises:
            ImportError: pandas isn't installed.
        """
        pandas = importlib.import_module("pandas")
        frame = pandas.DataFrame(self.as_rows(), columns=list(COLUMNS))
        return frame.astype({**dict.fromkeys(_WHOLE, "Int64"), **dict.fromkeys(_REAL, "float64")})


def _of_run(run: str, told: str) -> str:
    """What is said of a run."""
    return f"{run}: {told}" if run else told


def _mean(numbers: Sequence[Optional[float]]) -> Optional[float]:
    known = [number for number in numbers if number is not None]
    return sum(known) / len(known) if known else None


def _decimals(number: Optional[float], places: int = 4) -> str:
    return "" if number is None else f"{number:.{places}f}"


def _latex(text: str) -> str:
    """A text of LaTeX that shows this one."""
    named = {"\\": r"\textbackslash{}", "~": r"\textasciitilde{}", "^": r"\textasciicircum{}"}
    return re.sub(r"[\\~^&%$#_{}]", lambda found: named.get(found[0], f"\\{found[0]}"), readable(text))
