"""The calls of libtsp over ctypes. The module _declared.py has their signatures, made from bindings/c/tsp.h.

Each call takes and returns Python's own types. The library keeps no pointer and has no state but that of a
handle, so calls may run side by side; ctypes releases Python's lock while one runs. A handle serves one call
at a time: `Handle` locks.

The library is the file that the environment variable YOKECAIRN_LIBRARY names, else `libtsp.so` in this
package, else `libtsp.so.0` as the system finds it. On Windows both are called `libtsp.dll`.
"""

import ctypes
import os
import sys
import threading
import weakref
from array import array
from ctypes import byref, c_int64, c_size_t
from pathlib import Path
from typing import Any, Dict, Optional, Sequence, Tuple

from . import _declared


def _words(prefix: str) -> Dict[str, int]:
    """The words behind a prefix in the header with their numbers, without a word that stands for none."""
    names = vars(_declared).items()
    return {name[len(prefix) :]: number for name, number in names if name.startswith(prefix) and isinstance(number, int) and number}


# What a call returns. DEVICE is a status of the program alone.
DONE, NO, FAULT = _declared.YES, _declared.NO, _declared.FAULT
OUT_OF_MEMORY, REFUSED, TOO_SMALL = _declared.OUT_OF_MEMORY, _declared.REFUSED, _declared.TOO_SMALL
DEVICE = 5

# How a check gets its bound.
ALONE, POTENTIALS, BRANCHES = _declared.BY_NONE, _declared.BY_POTENTIALS, _declared.BY_BRANCHES

# The section of points that costs are computed from.
_COORDS = _declared.POINTS_NODE_COORD

# The distances, and the layouts, by their numbers.
KINDS, LAYOUTS = _words("DISTANCE_"), _words("LAYOUT_")

# The forms of solutions by their names in `tsp solution --forms`.
FORMS = {name.lower().replace("or_tools", "ortools").replace("_", "-"): number for name, number in _words("FORM_").items()}

# The calls that are explained, by their numbers.
SHOW, CONVERT, CHECK, BOUND = _declared.OF_SHOW, _declared.OF_CONVERT, _declared.OF_CHECK, _declared.OF_BOUND

# The verdicts, by their numbers.
TOUR, ROUTES, NO_TOUR = _declared.TOUR, _declared.ROUTES, _declared.NO_TOUR

# The TYPEs of instances by their numbers from 1.
TYPES = tuple(_words("TYPE_"))

# The most numbers that `lengths` takes.
MOST_NODES = 1_000_000

# Enough for the report of a check without hundreds of unknown keywords: no second call is needed.
REPORT = 4096


def path() -> str:
    """The library's path, or its name for the system's loader."""
    named = os.environ.get("YOKECAIRN_LIBRARY")
    if named:
        return named
    own, elsewhere = ("libtsp.dll", "libtsp.dll") if sys.platform == "win32" else ("libtsp.so", "libtsp.so.0")
    inside = Path(__file__).with_name(own)
    return str(inside) if inside.exists() else elsewhere


try:
    _libtsp = ctypes.CDLL(path())
except OSError as fault:
    raise ImportError(
        f"yokecairn: libtsp can't be loaded: {fault}. It is built for Linux on x86-64 (v2). The environment"
        " variable YOKECAIRN_LIBRARY names another file"
    ) from fault


def _call(name: str) -> Any:
    """An export of the library with its signature."""
    call = getattr(_libtsp, name)
    call.restype, call.argtypes = _declared.CALLS[name]
    return call


class Result(_declared.tsp_result):
    """What a call answers, in numbers."""

    @property
    def bound(self) -> Optional[int]:
        """The bound, where there is one."""
        return (self.bound_high << 64) + self.bound_low if self.has_bound else None


_check, _bound, _explain = _call("tsp_check_result"), _call("tsp_bound_result"), _call("tsp_explain")
_show, _convert, _solution = _call("tsp_show"), _call("tsp_convert"), _call("tsp_solution")
_points = _call("tsp_points")
_open, _close, _bind, _version = _call("tsp_open"), _call("tsp_close"), _call("tsp_bind"), _call("tsp_version")
_check_held, _points_held = _call("tsp_instance_check"), _call("tsp_instance_points")
_weights_held, _matrix_held, _lengths_held = (_call(f"tsp_instance_{name}") for name in ("weights", "matrix", "lengths"))

# The distance of two points: distance(kind, x, y, z, x, y, z), in counts of 10^-9; -1 where it is
# refused. It is called once for each weight, so nothing is wrapped around it.
distance = _call("tsp_distance")


def _written(call: Any, *words: Any, capacity: int) -> Tuple[int, bytes]:
    """The status of a call that writes a text, and the text."""
    written = c_size_t()
    while True:
        out = ctypes.create_string_buffer(max(capacity, 1))
        status = call(*words, out, len(out), ctypes.byref(written))
        if status != TOO_SMALL:
            return status, ctypes.string_at(out, written.value)
        capacity = written.value


def _slice(numbers: "array[int]") -> Tuple[int, int]:
    """The address of an array, which isn't NULL where it is empty, and its length."""
    address, count = numbers.buffer_info()
    return (address, count) if count else (ctypes.addressof(_NOTHING), 0)


_NOTHING = c_int64()


def check(
    instance: bytes, solution: bytes, certificate: bytes, by: int, claimed: Optional[int], strict: bool = False
) -> Tuple[int, bytes]:
    """The status of a check, and its report or the line of a fault."""
    return check_result(instance, solution, certificate, by, claimed, strict)[:2]


def check_result(
    instance: bytes, solution: bytes, certificate: bytes, by: int, claimed: Optional[int], strict: bool = False
) -> Tuple[int, bytes, Result]:
    """The same with the result in numbers."""
    words = (instance, len(instance), solution, len(solution), certificate, len(certificate), by)
    result = Result()
    status, told = _written(_check, *words, *_claim(claimed, strict), byref(result), capacity=REPORT)
    return status, told, result


def _claim(claimed: Optional[int], strict: bool = False) -> Tuple[int, int]:
    """A claimed length, and whether there is one, with 2 more where unknown keywords are a reason."""
    return claimed or 0, int(claimed is not None) + 2 * strict


def bound(instance: bytes, certificate: bytes, by: int, strict: bool = False) -> Tuple[int, bytes]:
    """The status of a bound without a tour, and its report or the line of a fault."""
    return bound_result(instance, certificate, by, strict)[:2]


def bound_result(instance: bytes, certificate: bytes, by: int, strict: bool = False) -> Tuple[int, bytes, Result]:
    """The same with the result in numbers."""
    result = Result()
    words = (instance, len(instance), certificate, len(certificate), by + 2 * strict, byref(result))
    status, told = _written(_bound, *words, capacity=REPORT)
    return status, told, result


def show(text: bytes) -> Tuple[int, bytes]:
    """The status of a text, and what is shown of it or the line of its fault."""
    return _written(_show, text, len(text), capacity=REPORT)


def convert(text: bytes, layout: int) -> Tuple[int, bytes]:
    """The status of a text, and its canonical text or the line of its fault. Layout 0 is its own."""
    return _written(_convert, text, len(text), layout, capacity=len(text) + REPORT)


def solution(text: bytes, instance: bytes, form: int, first: int, depot: int) -> Tuple[int, bytes]:
    """The status of a solution in any form, and its text of TYPE TOUR or the line of its fault. Each number may be 0, for what
    isn't known, and the instance empty."""
    words = (text, len(text), instance, len(instance), form, first, depot)
    return _written(_solution, *words, capacity=len(text) + REPORT)


def points(text: bytes, nodes: int) -> Tuple[int, "array[int]"]:
    """The status, and x, y and z of node 1, 2, .. in counts of 10^-9."""
    out = array("q", bytes(24 * nodes))
    return _points(text, len(text), _COORDS, *_slice(out)), out


class Handle:
    """An instance that the library has read, and that is asked without reading it again.

    Each call takes a lock, so threads may share a handle, and what it holds is freed with it.

    Attributes:
        status: how the text opened.
        result: the instance in numbers, or the fault.
    """

    def __init__(self, text: bytes) -> None:
        self._held, self._lock, self.result = _declared.tsp_instance(), threading.Lock(), Result()
        self._at = byref(self._held)
        self.status = int(_open(text, len(text), self._at, byref(self.result)))
        self.close = weakref.finalize(self, _close, self._at)

    def bind(self, certificate: bytes, by: int) -> Tuple[int, Result]:
        """Binds a certificate, in the place of the one before; the status, and what it gives."""
        result = Result()
        with self._lock:
            return _bind(self._at, certificate, len(certificate), by, byref(result)), result

    def check(self, solution: bytes, claimed: Optional[int], strict: bool = False) -> Tuple[int, bytes, Result]:
        """The status of a check, its report or the line of a fault, and the result in numbers."""
        result = Result()
        words = (self._at, solution, len(solution), *_claim(claimed, strict), byref(result))
        with self._lock:
            status, told = _written(_check_held, *words, capacity=REPORT)
        return status, told, result

    def points(self, nodes: int) -> Tuple[int, "array[int]"]:
        """The status, and x, y and z of node 1, 2, .. in counts of 10^-9."""
        out = array("q", bytes(24 * nodes))
        with self._lock:
            return _points_held(self._at, _COORDS, *_slice(out)), out

    def weights(self, pairs: "array[int]") -> Tuple[int, "array[int]"]:
        """The status, and the costs of the pairs, whose nodes follow each other."""
        out = array("q", bytes(8 * (len(pairs) // 2)))
        with self._lock:
            return _weights_held(self._at, *_slice(pairs), *_slice(out)), out

    def matrix(self, nodes: int) -> Tuple[int, "array[int]"]:
        """The status, and the costs from each node to each, row by row."""
        out = array("q", bytes(8 * nodes * nodes))
        with self._lock:
            return _matrix_held(self._at, 1, *_slice(out)), out

    def lengths(self, nodes: "array[int]", tours: int) -> Tuple[int, "array[int]"]:
        """The status, and the length of each tour. A 0 ends a tour in `nodes`, which has at most MOST_NODES."""
        out = array("q", bytes(8 * tours))
        with self._lock:
            return _lengths_held(self._at, *_slice(nodes), *_slice(out)), out


def explain(
    call: int,
    texts: Sequence[bytes],
    names: Sequence[bytes],
    number: int,
    claimed: Optional[int],
    strict: bool = False,
) -> bytes:
    """What explains the answer of a call, for a person; it is empty where there is no memory for it.

    `texts` and `names` are those of the instance, the solution and the certificate, `number` is the kind of
    certificate or the layout.
    """
    number += 2 * (strict and call == BOUND)
    words = [word for text in (*texts, b"\0".join(names)) for word in (text, len(text))]
    status, told = _written(_explain, call, *words, number, *_claim(claimed, strict), capacity=REPORT)
    return told if status == DONE else b""


def version() -> str:
    """The library's version."""
    number = int(_version())
    return f"{number // 10000}.{number // 100 % 100}.{number % 100}"
