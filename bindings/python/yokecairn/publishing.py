"""The calls `publish`, which puts a result into a folder for publication, and `verify`, which checks such a folder."""

import hashlib
import os
import platform
import re
import shlex
import shutil
import stat
import subprocess
import sys
from pathlib import Path as _Path
from typing import Dict, Iterable, List, NamedTuple, Optional, Tuple

from . import _library
from .faults import Error, text_of
from .problem import Path
from .report import Report, check, solution_of
from .solution import shape_of

SUMS, REPORT, RECHECKED, VERSIONS, README, SCRIPT = "SHA256SUMS", "report", "recheck", "versions", "README", "recheck.py"
_OWN = (SUMS, REPORT, RECHECKED, VERSIONS, README, SCRIPT)
_FILES = "files"  # the line of README behind which the files are named, with what each is
_ROLES = ("instance", "solution", "potentials", "branches")
_ORIGINAL = "original"  # the role of a solution in another program's form
_PIECE = 1 << 20
_MOST_TEXT = 1 << 20  # bytes of a file that `publish` writes itself
_MOST_BYTES = 1 << 30  # bytes of any other file: the library reads no more of it
_MOST_ENTRIES = 100  # of a folder that are looked at
_VERSIONS = re.compile(r"libtsp ([0-9.]+)(?: [0-9a-f]{64})?\nPython [^\n]*\nsystem [^\n]*\n")


class Step(NamedTuple):
    """One thing that `verify` looked at.

    Attributes:
        what: the file of the folder, or `files` for all of them.
        against: what it was held against.
        holds: whether it holds; None if it couldn't be checked.
        said: what was found.
    """

    what: str
    against: str
    holds: Optional[bool]
    said: str


class Verification(List[Step]):
    """The steps of a check. It is `yes` if no step fails, and the library has accepted the solution."""

    @property
    def yes(self) -> bool:
        """Whether the published result holds."""
        return all(step.holds is not False for step in self) and any(step.what == REPORT and step.holds for step in self)

    def __str__(self) -> str:
        words = {True: "holds against", False: "FAILS against", None: "not checked against"}
        lines = [f"{step.what}: {words[step.holds]} {step.against}: {step.said}" for step in self]
        return "\n".join([*lines, "yes" if self.yes else "no"])


def _by() -> str:
    return f"libtsp {_library.version()}, which is proved"


def _shown(text: str) -> str:
    """A text from a folder as it may be written to a terminal: what isn't printable is written in hexadecimal, and so is a
    byte that is no UTF-8."""
    return "".join(sign if sign.isprintable() else _escaped(sign) for sign in text)


def _escaped(sign: str) -> str:
    is_byte = "\udc80" <= sign <= "\udcff"  # as surrogateescape has it
    return f"\\x{ord(sign) & 0xFF:02x}" if is_byte else sign.encode("unicode_escape").decode()


def _bad_name(name: str) -> Optional[str]:
    """Why a file can't have this name in a published folder; None if it can."""
    if name in ("", ".", "..") or "/" in name or "\\" in name:
        return "is in another folder"
    if name.startswith("-"):
        return "begins with -, as an option does"
    if name != name.strip() or any(ord(sign) < 32 or sign in "\x7f\x85\u2028\u2029" for sign in name):
        return "has a line end, a control byte or a blank at an end"
    return "is that of a file that publish writes" if name in _OWN else None


def _sum_of(path: _Path) -> str:
    """The sum of a file by SHA-256."""
    found = hashlib.sha256()
    with open(path, "rb") as file:
        for piece in iter(lambda: file.read(_PIECE), b""):
            found.update(piece)
    return found.hexdigest()


def _script() -> Optional[_Path]:
    """The script that checks a tour anew without the library: that of the package, or of the repository."""
    here = _Path(__file__).resolve().parent
    places = (here / SCRIPT, here.parents[2] / "examples" / SCRIPT)
    return next((place for place in places if place.is_file()), None)


def _rechecked(names: Dict[str, str], folder: _Path) -> Tuple[Optional[str], str]:
    """What the script prints for the files of a folder; or None, and why."""
    script = _script()
    if script is None:
        return None, f"{SCRIPT} isn't installed"
    words = [sys.executable, "-I", str(script), *_words(names)]
    ended = subprocess.run(words, cwd=folder, capture_output=True, check=False, stdin=subprocess.DEVNULL)
    if ended.returncode not in (0, 1):
        lines = text_of(ended.stderr).strip().splitlines()
        return None, lines[-1] if lines else "it has no answer"
    return text_of(ended.stdout), ""


def _words(names: Dict[str, str]) -> List[str]:
    """The files as a command line names them."""
    options = (word for role in _ROLES[2:] if role in names for word in (f"--{role}", names[role]))
    return [names["instance"], names["solution"], *options]


def _claims(report: Report) -> str:
    """What a report says, in a sentence."""
    told = f"The tour visits each of the {report.nodes} nodes once, and its length is {report.length}."
    others = "No tour"
    if report.routes is not None:
        told = f"The {report.routes} routes serve every customer once, within capacity, and their length is {report.length}."
        others = "No plan with a customer in each route"
    if report.optimal:
        return f"{told} {others} is shorter."
    return told if report.bound is None else f"{told} {others} is shorter than {report.bound}."


def _readme(names: Dict[str, str], report: Report) -> str:
    """The text that tells a reader what the folder shows, and how to check it. It follows from the files alone."""
    words = " ".join(map(shlex.quote, _words(names)))
    named = [f"{role}: {names[role]}" for role in (*_ROLES, _ORIGINAL) if role in names]
    unjudged = [f"Lines of the instance with these keywords aren't judged: {', '.join(report.not_judged)}."] * bool(report.not_judged)
    return "\n".join([
        _claims(report), *unjudged, "",
        _FILES, *named,
        f"{REPORT}: what `tsp check` prints of them",
        f"{RECHECKED}: what {SCRIPT} prints, a second program that shares no code with the first",
        f"{VERSIONS}: by what both were made",
        f"{SUMS}: the sums of all files by SHA-256", "",
        "Each of these lines checks it again. The first needs Yokecairn's package for Python, and runs outside this folder,"
        " because Python would run files in it. The second needs Yokecairn's program, and the last ones nothing but Python 3.9"
        " and sha256sum:", "",
        '    (cd / && python3 -m yokecairn verify "$OLDPWD")',
        f"    tsp check {words}",
        f"    python3 {SCRIPT} {words}",
        f"    sha256sum -c {SUMS}", "",
    ])


def publish(
    folder: Path,
    instance: Path,
    solution: Path,
    potentials: Optional[Path] = None,
    branches: Optional[Path] = None,
    *,
    length: Optional[int] = None,
    claims: bool = True,
) -> Report:
    """Puts a result into a new folder: the instance, the solution and the certificate byte for byte, the report, the output
    of `recheck.py`, the versions of what made both, checksums, and a README. Returns the report.

    Another program's solution is kept as it is, and a file of TYPE TOUR is made from it. `length` and `claims` are as in
    `check`.

    Raises:
        ValueError: the solution is rejected, two files have the same name, a name can't be published, or the folder
            is a file or isn't empty.
        Fault, SolutionError, OSError: as in `check`.
    """
    given = {"instance": instance, "solution": solution, "potentials": potentials, "branches": branches}
    sources = {role: _Path(path) for role, path in given.items() if path is not None}
    report = check(instance, solution, potentials, branches, length, explain=True, foreign=None, claims=claims)
    if not report.yes:
        raise ValueError(f"nothing is published: no {report.detail}\n{report.explanation}")
    text = sources["instance"].read_bytes()
    told, _, _ = solution_of(solution, lambda: shape_of(text), None, claims)
    if told != sources["solution"].read_bytes():
        sources[_ORIGINAL] = sources["solution"]
    names = _names_of(sources)
    top = _Path(folder)
    if top.exists() and not top.is_dir():
        raise ValueError(f"this is a file, and not a folder: {top}")
    if top.exists() and any(top.iterdir()):
        raise ValueError(f"the folder isn't empty: {top}")
    script = _script()
    if script is None:
        raise ValueError(f"{SCRIPT} isn't installed, which a published folder has")
    top.mkdir(parents=True, exist_ok=True)
    for role, path in sources.items():
        shutil.copyfile(path, top / names[role])
    (top / names["solution"]).write_bytes(told)
    shutil.copyfile(script, top / SCRIPT)
    _write_made(top, names, report)
    return report


def _names_of(sources: Dict[str, _Path]) -> Dict[str, str]:
    """The name of each file in the folder.

    Raises:
        ValueError: two have one name, or a name can't be published.
    """
    names = {role: path.name for role, path in sources.items()}
    if _ORIGINAL in names:
        names["solution"] = f"{names[_ORIGINAL]}.tour"
    for name in names.values():
        if why := _bad_name(name):
            raise ValueError(f"the name of a file {why}: {_shown(name)}")
    if len(set(names.values())) < len(names):
        raise ValueError(f"two files have one name: {', '.join(names.values())}")
    return names


def _write_made(top: _Path, names: Dict[str, str], report: Report) -> None:
    """Writes what is made from the files."""

    def write(name: str, text: str) -> None:
        (top / name).write_bytes(text.encode("utf-8", "surrogateescape"))

    write(REPORT, report.text)
    rechecked, why = _rechecked(names, top)
    write(RECHECKED, f"{SCRIPT}: {why}\n" if rechecked is None else rechecked)
    write(VERSIONS, _versions())
    write(README, _readme(names, report))
    write(SUMS, "".join(f"{_sum_of(it)}  {it.name}\n" for it in sorted(top.iterdir())))


def _versions() -> str:
    """What made the report, in lines."""
    library = _Path(_library.path())
    own = f" {_sum_of(library)}" if library.is_file() else ""
    return f"libtsp {_library.version()}{own}\nPython {platform.python_version()}\nsystem {platform.platform()}\n"


# ---- the check of a folder


def verify(folder: Path) -> Verification:
    """Checks a folder that `publish` made, using only its files. Everything that was made from other files is made again
    and compared: the report, by the library; the output of `recheck.py`, by the one in this package; the README; and
    `recheck.py` itself. A step fails if there is an additional file or a link, or if a file is too large.

    Raises:
        OSError: a file can't be read.
        ValueError: the folder has no README that names its files.
    """
    top = _Path(folder)
    _plain(top, [README])
    names = _names_in(_text(top, README))
    if faults := _plain(top, _wanted(names)):
        return Verification([Step("files", README, False, "; ".join(faults))])
    report, rechecked = _text(top, REPORT), _text(top, RECHECKED)
    judged, found = _of_library(top, names, report)
    made = [_of_report(top, names, rechecked, report), _of_readme(top, names, found), _of_recheck(top), _of_versions(top)]
    return Verification([_of_files(top, names), _of_sums(top, names), *_of_original(top, names), judged, *made])


def _text(top: _Path, name: str) -> str:
    """The text of a file of the folder."""
    return text_of((top / name).read_bytes())


def _wanted(names: Dict[str, str]) -> List[str]:
    """The files that a folder has."""
    return sorted({*names.values(), *_OWN})


def _plain(top: _Path, wanted: Iterable[str]) -> List[str]:
    """What is wrong with these files before any is read: one that is missing, a link, a folder or a device, or too large.

    Raises:
        OSError: the README can't be looked at.
        ValueError: the README is one of these.
    """
    faults = []
    for name in wanted:
        most = _MOST_TEXT if name in _OWN else _MOST_BYTES
        try:
            found = os.lstat(top / name)
        except FileNotFoundError:
            if name == README:
                raise
            faults.append(f"there is no {name}")
            continue
        if not stat.S_ISREG(found.st_mode):
            faults.append(f"{name} is {'a link' if stat.S_ISLNK(found.st_mode) else 'no file'}")
        elif found.st_size > most:
            faults.append(f"{name} has {found.st_size} bytes, and {most} are the most")
        if faults and name == README:
            raise ValueError(faults[0])
    return faults


def _of_files(top: _Path, names: Dict[str, str]) -> Step:
    """Whether the folder has no other file than it should have."""
    wanted = _wanted(names)
    with os.scandir(top) as entries:
        seen = [entry.name for entry, _ in zip(entries, range(_MOST_ENTRIES))]
    if others := sorted(_shown(name) for name in seen if name not in wanted):
        more = f" (the first {_MOST_ENTRIES} files were looked at)" if len(seen) == _MOST_ENTRIES else ""
        return Step("files", README, False, f"it doesn't name {', '.join(others)}{more}")
    return Step("files", README, True, f"the folder has the {len(wanted)} files of a published result, and no other")


def _names_in(readme: str) -> Dict[str, str]:
    """The names of the files by their roles."""
    lines = readme.partition(f"\n{_FILES}\n")[2].partition("\n\n")[0].split("\n")
    pairs = (line.partition(": ") for line in lines)
    names = {role: name for role, _, name in pairs if role in (*_ROLES, _ORIGINAL)}
    if not {"instance", "solution"} <= names.keys():
        raise ValueError(f"{README} names no instance and solution")
    for name in names.values():
        if why := _bad_name(name):
            raise ValueError(f"a name in {README} {why}: {_shown(name)}")
    if len(set(names.values())) < len(names):
        raise ValueError(f"{README} gives two files one name")
    return names


def _of_sums(top: _Path, names: Dict[str, str]) -> Step:
    """Whether each file has the sum that is listed, and no other file is."""
    lines = _text(top, SUMS).split("\n")[:-1]
    listed = {name: told for told, _, name in (line.partition("  ") for line in lines)}
    wanted = [name for name in _wanted(names) if name != SUMS]
    said = f"each of the {len(wanted)} has its sum"
    if strange := [line for line in lines if not line.partition("  ")[2]]:
        said = f"this line is no sum with a name: {_shown(strange[0]):.60}"
    elif len(lines) != len(listed):
        said = "it lists a file twice"
    elif missing := [name for name in wanted if name not in listed]:
        said = f"it doesn't list {', '.join(missing)}"
    elif others := sorted(_shown(name) for name in listed if name not in wanted):
        said = f"it lists another file: {', '.join(others):.200}"
    elif changed := [name for name in wanted if _sum_of(top / name) != listed[name]]:
        said = f"it has another sum for {', '.join(changed)}"
    else:
        return Step(SUMS, "the other files", True, said)
    return Step(SUMS, "the other files", False, said)


def _of_original(top: _Path, names: Dict[str, str]) -> List[Step]:
    """Whether the file of TYPE TOUR is what the package makes of the other program's file."""
    if _ORIGINAL not in names:
        return []
    against = f"{names[_ORIGINAL]}, by this package"
    text = (top / names["instance"]).read_bytes()
    try:
        told, _, _ = solution_of(top / names[_ORIGINAL], lambda: shape_of(text), None, True)
    except Error as fault:
        return [Step(names["solution"], against, False, _shown(str(fault).splitlines()[0]))]
    same = told == (top / names["solution"]).read_bytes()
    said = "it is the same solution as a file of TYPE TOUR" if same else "it isn't the file of TYPE TOUR that is made of it"
    return [Step(names["solution"], against, same, said)]


def _of_library(top: _Path, names: Dict[str, str], report: str) -> Tuple[Step, Optional[Report]]:
    """Whether the library accepts the solution, with this report; and its own report if it does."""
    given = [str(top / names[role]) if role in names else None for role in _ROLES]
    try:
        found = check(str(given[0]), str(given[1]), given[2], given[3], foreign=False)
    except Error as fault:
        return Step(REPORT, _by(), False, _shown(str(fault).splitlines()[0])), None
    if not found.yes:
        return Step(REPORT, _by(), False, f"no {found.detail}"), None
    if found.text != report:
        return Step(REPORT, _by(), False, _differing(report, found.text)), found
    return Step(REPORT, _by(), True, _claims(found)), found


def _differing(published: str, made: str) -> str:
    """In which line a text differs from the one that is made again."""
    pairs = zip([*published.split("\n"), "the end"], [*made.split("\n"), "the end"])
    number, (has, wants) = next((place, pair) for place, pair in enumerate(pairs, 1) if pair[0] != pair[1])
    return f"its line {number} is {_shown(has)[:120]!r}, and should be {_shown(wants)[:120]!r}"


def _of_report(top: _Path, names: Dict[str, str], rechecked: str, report: str) -> Step:
    """Whether the script prints the published report, and what the folder says that it prints."""
    against = f"this package's {SCRIPT}"
    found, why = _rechecked(names, top)
    if found is None:
        return Step(RECHECKED, against, None if _script() is None else False, _shown(why))
    if found != report:
        return Step(RECHECKED, against, False, f"it prints another report than {REPORT} has")
    if found != rechecked and not rechecked.startswith(f"{SCRIPT}: "):
        return Step(RECHECKED, against, False, _differing(rechecked, found))
    return Step(RECHECKED, against, True, "it prints the same report")


def _of_readme(top: _Path, names: Dict[str, str], report: Optional[Report]) -> Step:
    """Whether the README is the one that follows from the files."""
    against = "the one that this package writes"
    if report is None:
        return Step(README, against, None, "there is no accepted solution to write it from")
    published, made = _text(top, README), _readme(names, report)
    if published != made:
        return Step(README, against, False, _differing(published, made) + _other_version(top))
    return Step(README, against, True, "it is the same")


def _of_recheck(top: _Path) -> Step:
    """Whether the script of the folder is the package's."""
    against, script = "this package's copy", _script()
    if script is None:
        return Step(SCRIPT, against, None, f"{SCRIPT} isn't installed")
    same = (top / SCRIPT).read_bytes() == script.read_bytes()
    return Step(SCRIPT, against, same, "it is the same" if same else f"it is another program: don't run it{_other_version(top)}")


def _other_version(top: _Path) -> str:
    """Why a file may differ from this package's honestly."""
    match = _VERSIONS.fullmatch(_text(top, VERSIONS))
    if match is None or match[1] == _library.version():
        return ""
    return f" ({VERSIONS} names libtsp {match[1]}, and this is {_library.version()}: verify it by the package of that version)"


def _of_versions(top: _Path) -> Step:
    """What made the folder by its own word, which nothing here can tell."""
    text = _text(top, VERSIONS)
    if not _VERSIONS.fullmatch(text):
        return Step(VERSIONS, "its form", False, "it isn't three lines on libtsp, Python and the system")
    return Step(VERSIONS, "anything", None, f"by the publisher's word, {_shown(', '.join(text.split(chr(10))[:-1]))}")
