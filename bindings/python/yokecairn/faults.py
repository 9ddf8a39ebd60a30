"""The exceptions of the package, which say why a call has no answer.

    Error
        Fault (a ValueError)        a text isn't a valid file by docs/format.md
            LineFault               a line or a word is wrong
            EndFault                something is missing at the end
            TooLong                 the text is too long
            WrongKind               the first file of a check has a TYPE that the check can't use
            RelayoutFault           the weights can't be written in the layout
            SolutionError           another program's solution has no known form
        OutOfMemory (a MemoryError)
        NodeError (a LookupError)   the instance has no such node
"""

import os
import re
from typing import Callable, Optional, Sequence, Tuple, Type, Union

from . import _library

_MOST_SHOWN = 60  # characters of a word that has a fault
_LINE = re.compile(r"(?:file (\d+): )?(?:line (\d+) word (\d+): |(end: )|(relayout: ))?(.*)", re.DOTALL)


class Error(Exception):
    """The base of this package's exceptions."""


class NodeError(Error, LookupError):
    """The instance has no such node."""


class OutOfMemory(Error, MemoryError):
    """Out of memory, with the number of the file where it was known."""

    def __init__(self, told: str, file: Optional[int] = None) -> None:
        super().__init__(told, file)
        self.told = told
        self.file = file

    def __str__(self) -> str:
        return self.told


class Fault(Error, ValueError):
    """A text isn't a valid file, or not a file that the call can use.

    Attributes:
        told: the line that the program prints, such as `file 1: line 6 word 1: RepeatedNode`.
        file: the number of the text: 1 is the instance, 2 the solution, 3 the certificate. For a bound
            without a solution, the certificate is 2.
        line: the line, counted from 1; None if the fault isn't in a line.
        word: the word in its line, counted from 1; 0 for the line as a whole; None if the fault isn't in a line.
        name: the fault's name in docs/format.md, such as `RepeatedNode`.
        details: what follows the name there: a number's fault, a field, or nodes.
        explanation: the explanation that `tsp --explain` prints; it may be empty.
        path: the path of the text, if it was read from one.
        found: the wrong word; if a line is wrong as a whole, its value, or the whole line if its keyword is
            unknown; None if the fault isn't in a line.
    """

    def __init__(
        self, told: str, explanation: str = "", path: Optional[str] = None, found: Optional[str] = None
    ) -> None:
        super().__init__(told, explanation, path, found)
        match = _LINE.fullmatch(told)
        assert match is not None  # any text matches
        file, line, word, _, _, rest = match.groups()
        name, *details = rest.split(" ")
        self.told = told
        self.file: Optional[int] = int(file) if file else None
        self.line: Optional[int] = int(line) if line else None
        self.word: Optional[int] = int(word) if word else None
        self.name: str = _NAMES.get(rest, name)
        self.details: Tuple[Union[int, str], ...] = ()
        if rest not in _NAMES:
            self.details = tuple(int(it) if it.isdigit() else it for it in details)
        self.explanation = explanation
        self.path = path
        self.found = found

    def __str__(self) -> str:
        where = f"{self.path}: " if self.path else ""
        found = f": {self.found}" if self.found else ""
        return where + self.told + found + (f"\n{self.explanation}" if self.explanation else "")

    def of_file(self, number: int) -> "Fault":
        """The same fault, of the text with another number."""
        return type(self)(re.sub(r"\Afile \d+", f"file {number}", self.told), self.explanation, self.path, self.found)


# Faults that are told in words.
_NAMES = {"too long": "TooLong", "wrong kind": "WrongKind"}


class LineFault(Fault):
    """A line or a word has a fault."""


class EndFault(Fault):
    """Something is missing at the end of a text, or its parts don't fit together."""


class TooLong(Fault):
    """A text is too long: the bytes that are looked at decide nothing."""


class WrongKind(Fault):
    """The first file of a check has a TYPE that the check can't use."""


class RelayoutFault(Fault):
    """The weights of a file can't be written in a layout."""


class SolutionError(Fault):
    """Another program's solution has no known form, or breaks the rules of its form. Its words stand between blanks and the marks
    `,` `;` `:` `[` `]` `(` `)` `{` `}` and `"`.
    """


def _class_of(told: str) -> Type[Fault]:
    match = _LINE.fullmatch(told)
    assert match is not None  # any text matches
    if match[2]:
        return LineFault
    if match[4]:
        return EndFault
    if match[5]:
        return RelayoutFault
    return {"too long": TooLong, "wrong kind": WrongKind}.get(match[6], Fault)


def _found(text: bytes, line: int, word: int, is_unknown: bool, marks: str = "") -> Optional[str]:
    """The word of a text at this place, between blanks and marks; of a line as a whole the value behind its colon, or all of it
    where that has none, or its keyword is unknown."""
    lines = text.split(b"\n", line)
    if len(lines) < line:
        return None
    whole = text_of(lines[line - 1]).strip(" \t\v\f\r")
    parts = whole.translate(dict.fromkeys(map(ord, marks), " ")).split()
    if word and not (marks and is_unknown):
        return parts[word - 1][:_MOST_SHOWN] if word <= len(parts) else None
    value = "" if is_unknown else whole.partition(":")[2].strip()
    return (value or whole)[:_MOST_SHOWN] or None


def text_of(told: bytes) -> str:
    """Bytes as text. Bytes that are no UTF-8 come back as they were by `surrogateescape`."""
    return told.decode("utf-8", "surrogateescape")


def readable(text: str) -> str:
    """A text with a sign in the place of each byte that is no UTF-8."""
    return text.encode("utf-8", "surrogateescape").decode("utf-8", "replace")


def located(fault: Fault) -> str:
    """The line of a fault with the path of its text, and the word that has it."""
    return ": ".join(filter(None, (fault.told, fault.path, fault.found)))


def explained(
    call: int,
    texts: Sequence[bytes],
    paths: Sequence[Optional[str]] = (),
    number: int = 0,
    claimed: Optional[int] = None,
    strict: bool = False,
) -> str:
    """What `tsp --explain` tells of the answer of a call of the library.

    The texts and their paths are those of the instance, the solution and the certificate.
    """
    whole = [*texts, b"", b""][:3]
    names = [os.fsencode(path or "") for path in paths]
    return text_of(_library.explain(call, whole, names, number, claimed, strict)).rstrip("\n")


def error_of(
    status: int,
    told: bytes,
    explain: Callable[[], str] = str,
    paths: Sequence[Optional[str]] = (),
    texts: Sequence[bytes] = (),
    kind: Optional[Type[Fault]] = None,
) -> Error:
    """The exception for a call that ended with this status and this line.

    `explain` tells more of a fault, and `paths` are those of the call's texts. `kind` is the class of a fault, if the line
    doesn't tell it.
    """
    line = text_of(told).rstrip("\n")
    match = _LINE.fullmatch(line)
    file = int(match[1]) if match and match[1] else None
    if status == _library.OUT_OF_MEMORY:
        return OutOfMemory(line or "out of memory", file)
    if status in (_library.NO, _library.FAULT):
        path = paths[file - 1] if file is not None and file <= len(paths) else None
        at = (file or 1) - 1
        found = None
        if match and match[2] and at < len(texts):
            marks = ',;:[](){}"' if kind is SolutionError else ""
            found = _found(texts[at], int(match[2]), int(match[3]), match[6] == "UnknownLine", marks)
        return (kind or _class_of(line))(line, explain(), path, found)
    raise AssertionError(f"libtsp answered the status {status}: {line}")
