"""Reads, writes and judges TSPLIB 95 files through a proved library.

    import yokecairn

    problem = yokecairn.load("harbour.tsp")
    problem.get_weight(1, 2)
    report = yokecairn.check("harbour.tsp", "harbour.tour", potentials="harbour.potentials")
    report.optimal

The calls that load and render files, and compute costs and lengths, have the same names as in tsplib95. What the
library answers is proved: whether a text is a valid file, its canonical text, and each cost, length, bound and verdict.
The package itself isn't proved, and neither are ctypes or the step from a canonical text to Python values.
"""

from . import _library
from ._declared import Reason
from .compare import Basis, BestUnknown, Comparison, compare
from .contest import Entry, table
from .faults import (
    EndFault,
    Error,
    Fault,
    LineFault,
    NodeError,
    OutOfMemory,
    RelayoutFault,
    SolutionError,
    TooLong,
    WrongKind,
)
from .problem import Problem, load, parse, read
from .publishing import Verification, publish, verify
from .report import Job, Report, bound, check, check_many, show
from .solution import best_known, read_solution
from .standings import Table


__all__ = [
    "Basis",
    "BestUnknown",
    "Comparison",
    "EndFault",
    "Entry",
    "Error",
    "Fault",
    "Job",
    "LineFault",
    "NodeError",
    "OutOfMemory",
    "Problem",
    "Reason",
    "RelayoutFault",
    "Report",
    "SolutionError",
    "Table",
    "TooLong",
    "Verification",
    "WrongKind",
    "best_known",
    "bound",
    "check",
    "check_many",
    "compare",
    "load",
    "parse",
    "publish",
    "read",
    "read_solution",
    "show",
    "table",
    "verify",
]

LAYOUTS = tuple(_library.LAYOUTS)
__version__ = _library.version()
