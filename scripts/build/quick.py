"""The quick program of a checkout, which isn't proved.

`rt try` lowers the whole program to one module for LLVM, and proves nothing. The toolchain's tools compile that module. So the quick program has the same code as the proved one, with the checks of `rt try`: it stops where a
number overflows, for example. Where the toolchain gives no module, ./build proves and builds.
"""
from __future__ import annotations

import fcntl
import shutil
import subprocess
import sys
import tempfile
import threading
import time
from collections.abc import Callable, Iterator
from contextlib import contextmanager
from pathlib import Path

from build.compiled import TARGET, compiled, trimmed
from build.library import make_library
from build.program import PROVED, QUICK, is_current, put, seal
from build.proved import FAILED, say
from build.sources import PROGRAM, ROOT, lay_out, name_build, sum_of
from build.toolchain import Failed, NoModule, Refused, kit, lowered, run, text_of

NO_WAY = 75
UNPROVED = ", not proved here"
BUILDING = "building the program without proving it"
# Begins the line of a terminal anew.
ANEW = "\r\x1b[K"


@contextmanager
def counted() -> Iterator[None]:
    """Says that the program is being built; at a terminal in a line that counts the seconds, and goes away."""
    if not sys.stderr.isatty():
        say(f"{BUILDING}, which takes a minute or two")
        yield
        return
    begun, ended = time.monotonic(), threading.Event()

    def count() -> None:
        while True:
            took = time.monotonic() - begun
            print(f"{ANEW}tsp: {BUILDING}: {took:.0f} s of a minute or two", end="", file=sys.stderr, flush=True)
            if ended.wait(1):
                return

    counting = threading.Thread(target=count)
    counting.start()
    try:
        yield
    finally:
        ended.set()
        counting.join()
        print(ANEW, end="", file=sys.stderr, flush=True)


def last_line(error: Exception) -> str:
    """The last line of what a command said."""
    return (str(error).strip().splitlines() or ["it says nothing"])[-1]


def make(file: Path, more: str = "") -> None:
    """Makes the quick program of the sources, with more in the name of its build, or with no name."""
    with tempfile.TemporaryDirectory(prefix="tsp-quick-") as folder:
        scratch = Path(folder)
        copy = scratch / "copy"
        copy.mkdir()
        lay_out([PROGRAM], copy)
        if more:
            name_build(copy, more)
        module, words = lowered(copy / "crates" / PROGRAM, scratch)
        made = compiled(trimmed(text_of(module, scratch / "module.ll")), words, scratch)
        link: list[str | Path] = [kit() / "bin/rattle-link", "--target", TARGET, "--toolchain", kit() / "toolchain", "-o", scratch / PROGRAM]
        run(*link, made, kit() / "c/libos_c.a", kit() / "c/liblibc_c.a")
        shutil.copy(scratch / PROGRAM, file)


def make_quick(sources: str, begun: float) -> None:
    """Makes the quick program, and puts it to its place."""
    with tempfile.TemporaryDirectory(prefix="tsp-quick-") as folder:
        made = Path(folder, PROGRAM)
        with counted():
            make(made, UNPROVED)
        if UNPROVED not in subprocess.run([made, "--version"], capture_output=True, text=True, check=False).stdout:
            raise Failed("the program doesn't tell that it isn't proved")
        put(made, QUICK, sources, begun)
    took = time.time() - begun
    say(f"built in {took:.0f} s. It isn't proved on this machine: ./build proves it, and replaces this program")


def find(sources: str, begun: float) -> Path | None:
    """A program of the sources, which is made where none is there."""
    for program in (PROVED, QUICK):
        if is_current(program, sources):
            seal(program, sources, begun)
            return program
    try:
        make_quick(sources, begun)
        return QUICK
    except Refused as error:
        print(error, file=sys.stderr, end="")
        say("the sources are refused")
        return None
    except Failed as error:
        say(f"this toolchain gives no program without a proof ({last_line(error)}), so ./build proves it first")
    if subprocess.run([ROOT / "build"], stdin=subprocess.DEVNULL, stdout=sys.stderr, check=False).returncode:
        return None
    return PROVED


def current() -> int:
    """Prints the path of a program of the sources; the exit status."""
    QUICK.parent.mkdir(parents=True, exist_ok=True)
    # (one call builds, and others wait for it)
    with open(QUICK.with_name("lock"), "w") as lock:
        fcntl.flock(lock, fcntl.LOCK_EX)
        begun = time.time()
        program = find(sum_of(PROGRAM), begun)
    if program is None:
        return FAILED
    print(program)
    return 0


def alone(making: Callable[[Path], None], place: Path) -> int:
    """Makes something of the sources at a place; the exit status."""
    try:
        making(place)
    except Failed as error:
        say(last_line(error))
        return NO_WAY if isinstance(error, NoModule) else FAILED
    return 0


def make_archive(folder: Path) -> None:
    """Makes the library's archive and its module in a folder."""
    with tempfile.TemporaryDirectory(prefix="tsp-quick-") as scratch:
        make_library(folder, Path(scratch))
