"""Runs of a program while calls of the C library are refused, by refusals.c, and what such a run has to end with.
For tests/program/refusals."""
from __future__ import annotations

import os
import subprocess
from dataclasses import dataclass, field
from itertools import count
from pathlib import Path
from typing import Callable, Iterator, NamedTuple

# refusals.c writes there.
MARKS = 9
SECONDS = 60


class NotSo(Exception):
    """A run ended otherwise than it has to."""


class Ended(NamedTuple):
    """How a run ended."""

    status: int
    out: bytes
    err: bytes
    marks: str = ""

    @property
    def is_refused(self) -> bool:
        """Whether a call was refused."""
        return bool(self.marks)

    @property
    def reads(self) -> int:
        """How many reads came before the first refusal."""
        return int(self.marks)

    def is_as(self, other: Ended) -> bool:
        """Whether it ended as the other one."""
        return self[:3] == other[:3]

    def is_fault(self, status: int, line: str) -> bool:
        """Whether it ended with this status, this one line on standard error, and nothing on standard output."""
        return self[:3] == (status, b"", f"{line}\n".encode())

    def told(self, refused: dict[str, object]) -> str:
        """The run in words, for a failure."""
        lines = [f"the status is {self.status}, with {refused or 'nothing refused'}"]
        for stream, text in ("stdout", self.out), ("stderr", self.err):
            lines += [f"    {stream}: {line}" for line in text.decode(errors="replace").splitlines()[:8]]
        return "\n".join(lines)


@dataclass
class Refusals:
    """A library that refuses calls, and the folder in which programs run with it."""

    folder: Path
    library: Path
    marks: Path = field(init=False)

    def __post_init__(self) -> None:
        self.marks = self.folder / "marks"
        opened = os.open(self.marks, os.O_RDWR | os.O_CREAT)
        os.dup2(opened, MARKS)
        if opened != MARKS:
            os.close(opened)

    def run(self, command: list[str | Path], given: Path, refused: dict[str, object]) -> Ended:
        """A run of the command over this standard input, where these calls are refused."""
        os.ftruncate(MARKS, 0)
        os.lseek(MARKS, 0, os.SEEK_SET)
        environment = dict(os.environ)
        if refused:
            environment |= {"LD_PRELOAD": str(self.library)}
            environment |= {f"REFUSE_{name.upper()}": str(value) for name, value in refused.items()}
        with open(given, "rb") as bytes_given:
            ended = subprocess.run(
                command, cwd=self.folder, stdin=bytes_given, capture_output=True, env=environment,
                pass_fds=[MARKS], timeout=SECONDS, check=False,
            )
        return Ended(ended.returncode, ended.stdout, ended.stderr, self.marks.read_text())


class Run:
    """A run of the program: its words, and how it ends where nothing is refused."""

    def __init__(self, refusals: Refusals, program: Path, words: str, given: str = "/dev/null") -> None:
        self.refusals = refusals
        self.command: list[str | Path] = [program, *words.split()]
        self.given = refusals.folder / given
        # What it reads, in order: the words that are paths, or standard input where none is.
        self.files = [refusals.folder / word for word in words.split() if "/" in word] or [self.given]
        self.plain = refusals.run(self.command, self.given, {})

    def again(self, **refused: object) -> Ended:
        """The run while calls are refused, by the variables of refusals.c."""
        return self.refusals.run(self.command, self.given, refused)

    def each(self, is_well: Callable[[int, Ended], bool], **refused: object) -> int:
        """How many calls are refused in turn: the first, the second, and so on, until none is left to refuse. Each
        run has to be well, and the one without a refusal has to end as the plain one."""
        for number in count(1):
            ended = self.again(at=number, **refused)
            if ended.is_refused:
                self.see(is_well(number, ended), ended, refused | {"at": number})
                continue
            self.see(number > 1 and ended.is_as(self.plain), ended, refused | {"at": number})
            return number - 1
        raise AssertionError

    def see(self, is_well: object, ended: Ended, refused: dict[str, object]) -> None:
        """Sees that a run is well."""
        if not is_well:
            raise NotSo(ended.told(refused))

    def shorten(self, call: str) -> None:
        """Each read, or each write to standard output, takes 1 byte at most, or 2, or 3."""
        for most in 1, 2, 3:
            ended = self.again(call=call, bytes=most)
            self.see(ended.is_as(self.plain), ended, {"call": call, "bytes": most})

    def reads_to(self, most: int) -> list[int]:
        """How many reads of at most so many bytes have read file 1, files 1 and 2, and so on. A file is read up to
        its line EOF, which is the last line of these files; where it has none, one more read finds its end."""
        ends, total = [], 0
        for file in self.files:
            text = file.read_bytes()
            total += -(-len(text) // most)
            last = text.splitlines()[-1:]
            if not (last and last[0].startswith(b"EOF")):
                total += 1
            ends.append(total)
        return ends


def file_of(read: int, ends: list[int]) -> int:
    """The number of the file that a read is of; the last file's after all reads."""
    return next((file for file, end in enumerate(ends, 1) if read <= end), len(ends))


def twentieth(texts: Iterator[bytes] | list[bytes]) -> int:
    """How many bytes at once make about twenty reads or writes of these texts."""
    return sum(map(len, texts)) // 20 + 1
