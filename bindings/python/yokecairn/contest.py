"""The call `table`: solvers beside each other on many instances. It finds the files, and judges them."""

import csv
import difflib
import os
from concurrent.futures import as_completed
from pathlib import Path as _Path
from typing import Any, Callable, Dict, Iterable, List, NamedTuple, Optional, Set, Tuple, Union

from .compare import Best, BestUnknown, Judge
from .faults import Error
from .problem import Path
from .report import executor_of
from .standings import Place, Standing, Table

_INSTANCES = (".tsp", ".atsp", ".vrp")
_CERTIFICATES = (".potentials", ".branches")
_SOLUTIONS = (".tour", ".sol", ".json", ".txt", ".csv", ".edges", ".cyc")
_HOME = "instances"  # the folder of a contest in which its instances are
_TIMES = "times.csv"
_MOST_TOLD = 10  # files that a refusal names

Progress = Callable[[int, int, str], None]


class Entry(NamedTuple):
    """A solution of an instance by a solver, with the certificate of the instance, if there is one. A solver that has
    several solutions of an instance names each by its run."""

    instance: Path
    solver: str
    solution: Path
    potentials: Optional[Path] = None
    branches: Optional[Path] = None
    run: str = ""


class Contest:
    """What the folders of a contest hold.

    Attributes:
        instances: the path of each instance, and its certificate, by its name.
        entries: the solutions.
        solvers: all that have a folder, also an empty one.
        seconds: how long a run took, by its solver, instance and run, if a file `times.csv` says so.
    """

    def __init__(self) -> None:
        self.instances: Dict[str, Tuple[str, Dict[str, str]]] = {}
        self.entries: List[Entry] = []
        self.solvers: Set[str] = set()
        self.seconds: Dict[Place, float] = {}

    def add_instances(self, files: Iterable[_Path]) -> None:
        """Adds the instances of these files, each with the certificate beside it.

        Raises:
            ValueError: two instances have one name, or a certificate has no instance.
        """
        listed = list(files)
        for file in listed:
            if file.suffix in _INSTANCES:
                other = self.instances.setdefault(file.stem, (str(file), {}))[0]
                if other != str(file):
                    raise ValueError(f"two instances have the name {file.stem}: {other} and {file}")
        for file in listed:
            if file.suffix in _CERTIFICATES:
                path, certificate = self.instances.get(file.stem, ("", {}))
                if not path or _Path(path).parent != file.parent:
                    raise ValueError(f"{file}: there is no instance {file.stem} beside it{self._near(file.stem)}")
                # (branches are tighter where there are potentials too)
                if not certificate or file.suffix == ".branches":
                    certificate.clear()
                    certificate[file.suffix[1:]] = str(file)

    def _near(self, name: str) -> str:
        """Which instance may be meant by a name."""
        near = difflib.get_close_matches(name, self.instances, 1)
        return f": is {near[0]} meant?" if near else ""

    def _parts(self, file: _Path) -> Tuple[str, str]:
        """The instance and the run that the name of a file has: `harbour` and `run1` of harbour.run1.tour. The instance is
        empty if there is none."""
        parts = file.name.split(".")
        for count in range(len(parts) - 1, 0, -1):
            name = ".".join(parts[:count])
            if name in self.instances:
                return name, ".".join(parts[count:-1])
        return "", ""

    def add_solver(self, solver: str, files: Iterable[_Path]) -> List[str]:
        """Adds the solutions of a solver; returns what is wrong with other files."""
        self.solvers.add(solver)
        wrong: List[str] = []
        others: List[_Path] = []
        for file in files:
            name, run = self._parts(file)
            if file.name == _TIMES:
                continue  # (below, when all runs are known)
            if file.suffix not in _SOLUTIONS:
                others.append(file)
            elif not name:
                stem = file.name.partition(".")[0]
                wrong.append(f"{file}: there is no instance {stem}{self._near(stem)}")
            else:
                path, certificate = self.instances[name]
                self.entries.append(Entry(path, solver, str(file), run=run, **certificate))
        for file in files:
            if file.name == _TIMES:
                self._add_times(solver, file)
        solved = {_Path(entry.instance).stem for entry in self.entries if entry.solver == solver}
        for file in others:  # (as a log beside a solution may be)
            name, _ = self._parts(file)
            if name and name not in solved:
                wrong.append(f"{file}: the name of a solution ends in {', '.join(_SOLUTIONS)}")
        return wrong

    def _add_times(self, solver: str, file: _Path) -> None:
        """Reads how many seconds runs took: columns `instance`, `seconds` and, if there are several runs, `run`, where `1` is
        the run `run1` too.

        Raises:
            ValueError: a line has another form, or names no instance.
        """
        known = {(_Path(entry.instance).stem, entry.run) for entry in self.entries if entry.solver == solver}
        with open(file, encoding="utf-8-sig", newline="") as lines:
            rows = csv.DictReader(lines)
            if not {"instance", "seconds"} <= set(rows.fieldnames or ()):
                raise ValueError(f"{file}:1: the columns instance and seconds are wanted, and run if there are several")
            for row in rows:
                name, run = row["instance"] or "", row.get("run") or ""
                try:
                    seconds = float(row["seconds"])
                except (TypeError, ValueError):
                    seconds = -1.0
                if not 0 <= seconds < float("inf"):
                    raise ValueError(f"{file}:{rows.line_num}: this is no number of seconds: {row['seconds']}")
                if name not in self.instances:
                    raise ValueError(f"{file}:{rows.line_num}: there is no instance {name}{self._near(name)}")
                if (name, run) not in known and (name, f"run{run}") in known:
                    run = f"run{run}"
                if (solver, name, run) in self.seconds:
                    raise ValueError(f"{file}:{rows.line_num}: a run of {name} comes twice")
                self.seconds[solver, name, run] = seconds


def _visible(folder: _Path) -> List[_Path]:
    """What is in a folder, in order, but for hidden files."""
    return sorted(it for it in folder.iterdir() if not it.name.startswith("."))


def _solvers_in(folder: _Path, is_top: bool, instances: Set[_Path]) -> Dict[_Path, List[_Path]]:
    """The folders of solvers in this one and below, with their files. A folder is one if it has a solution, or if it is a
    direct subfolder of a contest and has nothing that is known, as an empty one."""
    inside = _visible(folder)
    folders = [it for it in inside if it.is_dir()]
    is_contest = is_top or folder / _HOME in folders
    found: Dict[_Path, List[_Path]] = {}
    for it in folders:
        below = _solvers_in(it, False, instances)
        found.update(below)
        if is_contest and not below and not any(it == home or it in home.parents for home in instances):
            found[it] = [file for file in _visible(it) if file.is_file()]
    files = [it for it in inside if it.is_file()]
    has_solution = any(it.suffix in _SOLUTIONS for it in files)
    # what is beside the folders of a contest, as a list of best-known lengths, is no solution
    if has_solution and not (is_contest and folders):
        found[folder] = files
    elif is_top and not folders and folder not in instances:
        found[folder] = files
    return found


def find(folders: Iterable[Path], best: Optional[Path] = None) -> Contest:
    """The instances and solutions in these folders and their subfolders.

    An instance is a file `NAME.tsp`, `NAME.atsp` or `NAME.vrp`; `NAME.potentials` or `NAME.branches` in its folder is its
    certificate. A solution is a file `NAME.tour`, `.sol`, `.json` and so on, or `NAME.RUN.tour`, and its solver is the
    name of its folder. The file `best` isn't a solution.

    Raises:
        ValueError: a file's name matches no instance, or two files have the same name.
    """
    contest = Contest()
    tops = [_Path(folder) for folder in folders]
    contest.add_instances(sorted(file for top in tops for file in top.rglob("*") if file.is_file() and not file.name.startswith(".")))
    homes = {_Path(path).parent for path, _ in contest.instances.values()}
    wrong: List[str] = []
    for top in tops:
        found = _solvers_in(top, True, homes)
        if (top / _TIMES).is_file() and top not in found:
            wrong.append(f"{top / _TIMES}: a file of times is looked for in a solver's folder")
        for folder, files in found.items():
            own = [file for file in files if best is None or file != _Path(best)]
            if folder in homes:  # a folder of instances may have notes
                own = [file for file in own if contest._parts(file)[0] and file.suffix in _SOLUTIONS]
                if not own:
                    continue
            wrong += contest.add_solver(folder.resolve().name, own)
    if wrong:
        more = f"\nand {len(wrong) - _MOST_TOLD} more" if len(wrong) > _MOST_TOLD else ""
        raise ValueError("\n".join(wrong[:_MOST_TOLD]) + more)
    return contest


def listed_in(path: Path) -> List[Entry]:
    """The entries of a list. A line names the instance, the solver, the solution and, if there is one, the certificate as
    `potentials=PATH` or `branches=PATH`, separated by tabs. Empty lines and lines that begin with # are skipped. Paths are
    relative to the list's folder.

    Raises:
        ValueError: a line has another form.
        OSError: the list can't be read.
    """
    base = _Path(path).parent
    entries = []
    for number, line in enumerate(_Path(path).read_bytes().decode("utf-8", "surrogateescape").splitlines(), 1):
        fields = line.split("\t")
        if not line.strip() or line.startswith("#"):
            continue
        kind, _, certificate = fields[3].partition("=") if len(fields) == 4 else ("", "", "")
        if len(fields) not in (3, 4) or not all(fields) or (len(fields) == 4 and (kind not in ("potentials", "branches") or not certificate)):
            told = "an instance, a solver, a solution, and potentials=PATH or branches=PATH are wanted, with tabs between them"
            raise ValueError(f"{path}:{number}: {told}")
        given = {kind: str(base / certificate)} if kind else {}
        entries.append(Entry(str(base / fields[0]), fields[1], str(base / fields[2]), **given))
    return entries


# ---- what comes of all


class _Job(NamedTuple):
    """The solutions of an instance, by their solvers and runs."""

    instance: Path
    potentials: Optional[Path]
    branches: Optional[Path]
    solutions: Dict[Tuple[str, str], Path]
    best: Optional[Best]
    claims: bool


def _judged(job: _Job) -> Standing:
    """What comes of a job."""
    try:
        judge = Judge.of(job.instance, job.potentials, job.branches, True, job.claims)
        basis = judge.basis
    except (Error, OSError) as fault:
        return Standing(None, None, {place: fault for place in job.solutions}, fault)
    try:
        best = judge.best(job.best)
    except BestUnknown:
        best = None
    outcomes = {place: judge.outcome(path) for place, path in job.solutions.items()}
    return Standing(basis, best, outcomes, name=judge.name)


def table(
    entries: Union[Path, Iterable[Union[Path, Entry]]],
    *,
    best: Optional[Best] = None,
    workers: Optional[int] = None,
    processes: bool = False,
    claims: bool = True,
    progress: Optional[Progress] = None,
) -> Table:
    """Judges the solutions of several solvers on many instances, some of them at once.

    Each of `entries` is a folder, searched as `find` says, a list, read as `listed_in` says, or an `Entry`. The table has a
    row for each instance and a column for each solver, even if there is no solution. Solutions may be in the form of
    another program. The length that such a solution claims is checked, unless you pass `claims=False`. `best` maps NAMEs
    to best-known lengths, or is a file with lines `NAME LENGTH`. `workers` and `processes` are as in `check_many`.

    `progress(done, all, instance)` is called when an instance is done.

    Raises:
        ValueError: a file's name matches no instance; a solver has two solutions of an instance for one run, or two
            instances have the same name; there is no instance or no solver; or a line of a list has another form.
        OSError: a list, or the file of best-known lengths, can't be read.
    """
    given: List[Any] = [entries] if isinstance(entries, (str, os.PathLike)) else list(entries)
    places = [it for it in given if not isinstance(it, Entry)]
    listed = [it for it in given if isinstance(it, Entry)]
    listed += [entry for place in places if not os.path.isdir(place) for entry in listed_in(place)]
    contest = find((place for place in places if os.path.isdir(place)), best if isinstance(best, (str, os.PathLike)) else None)
    jobs = {name: _Job(path, solutions={}, best=best, claims=claims, **_certificate(own)) for name, (path, own) in contest.instances.items()}
    _add_entries(jobs, [*listed, *contest.entries], best, claims)
    solvers = contest.solvers | {entry.solver for entry in listed}
    if not jobs or not solvers:
        raise ValueError("there is no folder of a solver" if jobs else "there is no instance")
    found: Dict[str, Standing] = {}
    with executor_of(workers or os.cpu_count() or 1, processes) as pool:
        running = {pool.submit(_judged, job): name for name, job in jobs.items()}
        for done, future in enumerate(as_completed(running), 1):
            found[running[future]] = future.result()
            if progress is not None:
                progress(done, len(jobs), running[future])
    return Table(found, solvers, contest.seconds)


def _certificate(named: Dict[str, str]) -> Dict[str, Optional[str]]:
    return {"potentials": named.get("potentials"), "branches": named.get("branches")}


def _add_entries(jobs: Dict[str, _Job], entries: Iterable[Entry], best: Optional[Best], claims: bool) -> None:
    """Adds solutions to the jobs of their instances."""
    for entry in entries:
        name = _Path(entry.instance).stem
        job = jobs.setdefault(name, _Job(entry.instance, entry.potentials, entry.branches, {}, best, claims))
        if str(job.instance) != str(entry.instance):
            raise ValueError(f"two instances have the name {name}: {job.instance} and {entry.instance}")
        place = entry.solver, entry.run
        if place in job.solutions:
            of = f"{name}, run {entry.run}" if entry.run else name
            raise ValueError(f"{entry.solver} has two solutions of {of}: {job.solutions[place]} and {entry.solution}")
        job.solutions[place] = entry.solution
