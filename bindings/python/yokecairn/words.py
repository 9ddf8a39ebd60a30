"""What the words of the command line ask for: its verbs, their files and options, and `Task`."""

import argparse
from typing import Any, Dict, List, NoReturn, Optional, Sequence, Tuple

from . import LAYOUTS, __version__, _library
from .faults import explained
from .solution import length_of, shape_of, solution_text, told_by

# What is said of each verb, its files, and its options.
_VERBS: Dict[str, Tuple[str, Tuple[str, ...], Tuple[str, ...]]] = {
    "show": ("print what a file contains", ("file",), ()),
    "convert": ("write the canonical text of a file, with its matrix in a layout", ("file",), ("--layout",)),
    "check": (
        "judge a tour or routes for an instance",
        ("file", "solution"),
        ("--potentials", "--branches", "--length", "--strict", "--foreign", "--no-foreign", "--first", "--no-claims"),
    ),
    "bound": ("compute a bound for an instance from a certificate", ("file",), ("--potentials", "--branches", "--strict")),
    "compare": (
        "judge many solutions of an instance, and print a line for each",
        ("file", "solutions"),
        ("--potentials", "--branches", "--strict", "--best", "--tsv", "--json", "--summary", "--foreign", "--no-foreign", "--no-claims"),
    ),
    "table": (
        "compare solvers on many instances in a table",
        ("folders",),
        ("--best", "--csv", "--json", "--markdown", "--latex", "--html", "--jobs", "--no-claims"),
    ),
    "publish": (
        "put a result into a new folder, with everything that a reader needs to check it",
        ("folder", "file", "solution"),
        ("--potentials", "--branches", "--length", "--no-claims"),
    ),
    "verify": ("check a published folder, using only its files", ("folder",), ()),
    "solution": ("turn another program's solution into a file of TYPE TOUR", ("file",), ("--of", "--form", "--first", "--depot")),
}
_FILES: Dict[str, Dict[str, Any]] = {
    "file": {"metavar": "F", "help": "the instance; - is standard input"},
    "solution": {"metavar": "T", "help": "the solution"},
    "folder": {"metavar": "FOLDER", "help": "the folder of the result"},
    "folders": {"metavar": "FOLDER", "nargs": "+", "help": "instances, and a folder of solutions for each solver; or a list"},
    "solutions": {"metavar": "T", "nargs": "+", "help": "the solutions"},
}
# The file of verbs without an instance, and of one that reads no standard input.
_OTHERS: Dict[str, str] = {
    "show": "the file; - is standard input",
    "convert": "the file; - is standard input",
    "solution": "the other program's file; - is standard input",
    "publish": "the instance",
}


def _flag(told: str, **more: Any) -> Dict[str, Any]:
    """What argparse is told of an option without a value."""
    return {"action": "store_true", "help": told, **more}


def _value(named: str, told: str, **more: Any) -> Dict[str, Any]:
    """What argparse is told of an option with a value of this name."""
    return {"metavar": named, "help": told, **more}


_OPTIONS: Dict[str, Dict[str, Any]] = {
    "--explain": _flag("explain a fault or a no"),
    "--layout": _value("L", "the layout of the matrix"),
    "--potentials": _value("P", "a potentials file"),
    "--branches": _value("B", "a branches file"),
    "--length": _value("L", "claim the length L; a solution of another length is rejected"),
    "--strict": _flag("reject an instance with an unknown keyword or an unused field"),
    "--no-foreign": _flag("read only TYPE TOUR, like tsp", dest="foreign", action="store_false"),
    "--foreign": _flag("take the claim of a file of TYPE TOUR too, and read LKH-3's copies of the depot in it", default=None),
    "--first": _value("0|1", "0 if nodes count from 0 or routes list customers, 1 if nodes count from 1", type=int, choices=(0, 1)),
    "--no-claims": _flag("ignore the length that another program's file claims"),
    "--best": _value("BEST", "the best-known length, or a file with lines NAME LENGTH"),
    "--tsv": _flag("write a table with tabs between its columns"),
    "--json": _flag("write JSON once all solutions are judged"),
    "--csv": _flag("write a row for each instance and solver"),
    "--markdown": _flag("write a Markdown table"),
    "--latex": _flag("write a LaTeX tabular"),
    "--html": _flag("write HTML"),
    "--jobs": _value("N", "the number of processes", type=int),
    "--summary": _flag("write a one-line summary to standard error"),
    "--of": _value("F", "its instance"),
    "--form": _value("NAME", "the name of its form", choices=tuple(_library.FORMS)),
    "--depot": _value("D", "the depot, if it isn't node 1", type=int),
}
# What a verb may write in place of text.
_WRITTEN = ("tsv", "json", "csv", "latex", "html", "markdown")


class Refused(Exception):
    """The words are refused; with what is written to standard error."""


class Asked(Exception):
    """The words ask for help or the version; with that text, which goes to standard output with status 0."""


class _Parser(argparse.ArgumentParser):
    """A parser whose refusals and help are exceptions."""

    def __init__(self, **words: Any) -> None:
        super().__init__(add_help=False, allow_abbrev=False, **words)
        self.add_argument("-h", "--help", action=_Tell, nargs=0, help="print this")

    def error(self, message: str) -> NoReturn:
        raise Refused(f"{self.format_usage()}{self.prog}: {message}\n")


class _Tell(argparse.Action):
    """Writes a text in place of doing anything else."""

    def __call__(self, parser: argparse.ArgumentParser, *_: Any) -> NoReturn:
        raise Asked(parser.format_help() if self.dest == "help" else f"yokecairn {__version__}\n")


def _parser() -> argparse.ArgumentParser:
    """The parser of the table."""
    parser = _Parser(prog="python3 -m yokecairn", description="Reads, writes and judges files of TSPLIB 95.")
    parser.add_argument("-V", "--version", action=_Tell, nargs=0, help="print the version")
    parser.set_defaults(**{word.strip("-").replace("-", "_"): None for word in (*_FILES, *_OPTIONS)})
    verbs = parser.add_subparsers(dest="verb", metavar="VERB", title="verbs")
    for name, (told, files, options) in _VERBS.items():
        verb = verbs.add_parser(name, help=told, description=told)
        for word in ("--explain", *files, *options):
            said = {"help": _OTHERS[name]} if word == "file" and name in _OTHERS else {}
            verb.add_argument(word, **{**(_FILES.get(word) or _OPTIONS[word]), **said})
    return parser


class Task:
    """What the words of the command line ask for."""

    def __init__(self, given: argparse.Namespace) -> None:
        self.verb: Optional[str] = given.verb
        self.layout: Optional[str] = given.layout
        if self.layout is not None and self.layout not in LAYOUTS:
            raise Refused("unknown layout\n")
        self.potentials: Optional[str] = given.potentials
        self.branches: Optional[str] = given.branches
        if self.potentials is not None and self.branches is not None:
            raise Refused("both potentials and branches\n")
        if self.verb == "bound" and self.potentials is None and self.branches is None:
            raise Refused("neither potentials nor branches\n")
        self.by = _library.ALONE
        if self.potentials is not None:
            self.by = _library.POTENTIALS
        elif self.branches is not None:
            self.by = _library.BRANCHES
        self.claimed: Optional[int] = None
        self.is_own_claim = False
        if given.length is not None:
            try:
                self.claimed = length_of(given.length)
            except (ValueError, ArithmeticError):
                raise Refused("not a length\n") from None
        self.strict = bool(given.strict)
        self.foreign: Optional[bool] = given.foreign
        self.claims = not given.no_claims
        self.form: Optional[str] = given.form
        self.first: Optional[int] = given.first
        self.depot: Optional[int] = given.depot
        self.folders: List[str] = given.folders or [given.folder or ""]
        self.jobs: Optional[int] = given.jobs
        if self.jobs is not None and self.jobs < 1:
            raise Refused("--jobs is 1 or more\n")
        certificate = self.potentials if self.branches is None else self.branches
        self.paths: List[str] = [path for path in (given.file, given.of, given.solution, certificate) if path is not None]
        self.solutions: List[str] = given.solutions or []
        self.best: Optional[str] = given.best
        written = [name for name in _WRITTEN if getattr(given, name)]
        self.written = written[0] if written else "text"
        self.sums = bool(given.summary)
        if len(written) > 1:
            raise Refused(f"both --{written[0]} and --{written[1]}\n")
        if any("\n" in path for path in self.solutions):
            raise Refused("line end in a path\n")
        if [*self.paths, *self.solutions, self.best].count("-") > 1:
            raise Refused("standard input is read once\n")

    @property
    def names(self) -> List[str]:
        """What the files are called."""
        return ["standard input" if path == "-" else path for path in self.paths]

    def read(self, texts: List[bytes]) -> None:
        """Puts a text of TYPE TOUR in the place of another program's, and takes the length that it claims.

        Raises:
            Error: it isn't read.
        """
        if self.verb != "check":
            return
        path, shape = self.names[1], lambda: shape_of(texts[0])
        texts[1], claim = told_by(texts[1], shape, path, foreign=self.foreign, first=self.first, claims=self.claims)
        if self.claimed is None:
            self.claimed, self.is_own_claim = claim, claim is not None

    def done(self, texts: Sequence[bytes]) -> Tuple[int, bytes]:
        """The status of the verb on these texts, and what it writes.

        Raises:
            Error: a solution isn't read.
        """
        if self.verb == "solution":
            hints: Dict[str, Any] = {"form": self.form, "first": self.first, "depot": self.depot}
            return _library.DONE, solution_text(texts[0], *texts[1:], **hints, paths=self.names)
        if self.verb == "check":
            certificate = texts[2] if self.by else b""
            return _library.check(texts[0], texts[1], certificate, self.by, self.claimed, self.strict)
        if self.verb == "bound":
            return _library.bound(texts[0], texts[1], self.by, self.strict)
        if self.verb == "convert":
            return _library.convert(texts[0], _library.LAYOUTS[self.layout] if self.layout else 0)
        return _library.show(texts[0])

    def explained(self, texts: Sequence[bytes]) -> str:
        """What is told of the answer on these texts, for a person."""
        names = self.names
        if self.verb == "bound":
            texts, names = (texts[0], b"", texts[1]), [names[0], "", names[1]]
        call = getattr(_library, self.verb.upper()) if self.verb else _library.SHOW
        layout = _library.LAYOUTS[self.layout] if self.layout else 0
        told = explained(call, texts, names, self.by or layout, self.claimed, self.strict)
        if self.is_own_claim and "--length" in told:
            return f"{told}\n  The file itself claims {self.claimed}. --no-claims leaves that."
        return told


def task_of(words: Sequence[str]) -> Tuple[Task, bool]:
    """What these words ask for, and whether they ask for explanations.

    Raises:
        Refused, Asked: they ask for nothing that is done.
    """
    words = [] if list(words) == ["--"] else words
    parser = _parser()
    given, others = parser.parse_known_args(words)
    # (argparse takes no more solutions behind an option)
    if given.verb == "compare" and not any(word.startswith("-") and word != "-" for word in others):
        given.solutions += others
    elif others:
        parser.error(f"unrecognized arguments: {' '.join(others)}")
    if given.verb is None:
        if words:
            raise Refused("python3 -m yokecairn: a verb is missing\n")
        given.file = "-"
    return Task(given), bool(given.explain)
