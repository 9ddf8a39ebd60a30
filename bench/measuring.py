"""What the benchmarks share: runs of programs and what they took, the native program, and tables of measurements."""
from __future__ import annotations

import importlib.machinery
import importlib.util
import os
import resource
import subprocess
import sys
import time
from collections.abc import Callable, Sequence
from pathlib import Path
from types import ModuleType

HERE = Path(__file__).resolve().parent
PROGRAM = HERE.parent / "crates/tsp_tool/out/tsp_tool"


def native_in(folder: str, *options: str) -> Path:
    """The native program, built into a folder by rustc."""
    native = Path(folder, "native")
    subprocess.run(["rustc", "-O", *options, "--edition", "2021", "-o", native, HERE / "native/main.rs"], check=True)
    return native


def timed(words: Sequence[str | Path], folder: Path) -> tuple[tuple[float, float], bytes]:
    """The processor time and the wall time of a run, and what it prints."""
    begun = time.perf_counter()
    with subprocess.Popen(words, cwd=folder, stdout=subprocess.PIPE) as process:
        assert process.stdout
        told = process.stdout.read()
        _, status, used = os.wait4(process.pid, 0)
        process.returncode = os.waitstatus_to_exitcode(status)
    if process.returncode:
        sys.exit(f"{Path(sys.argv[0]).name}: status {process.returncode} of {' '.join(map(str, words))}")
    return (used.ru_utime + used.ru_stime, time.perf_counter() - begun), told


def took(words: Sequence[str | Path], begin: Callable[[], None] | None = None) -> resource.struct_rusage:
    """What a run took, without what it writes to standard error. `begin` is called in its process."""
    with subprocess.Popen(words, stderr=subprocess.DEVNULL, preexec_fn=begin) as process:
        _, status, usage = os.wait4(process.pid, 0)
        process.returncode = os.waitstatus_to_exitcode(status)
    if process.returncode:
        sys.exit(f"{words}: status {process.returncode}")
    return usage


def report_of(words: Sequence[str | Path]) -> dict[str, str]:
    """The lines of a report by their first words."""
    text = subprocess.run(words, stdout=subprocess.PIPE, text=True, check=True).stdout
    return dict(line.split(" ", 1) for line in text.splitlines() if " " in line)


def write_instance(path: str | Path, script: str, words: Sequence[str]) -> None:
    """Writes the instance that a script of this folder makes."""
    Path(path).write_bytes(subprocess.run([HERE / script, *words], stdout=subprocess.PIPE, check=True).stdout)


def rows_of(table: Path) -> list[dict[str, str]]:
    """The rows of a table of measurements, each by the names of its columns."""
    names, *rows = (line.split("\t") for line in table.read_text().splitlines())
    return [dict(zip(names, row)) for row in rows]


def machine() -> str:
    """The processor's name, and how many there are."""
    told = Path("/proc/cpuinfo").read_text()
    name = next((line.partition(":")[2] for line in told.splitlines() if line.startswith("model name")), "unknown")
    return f"{' '.join(name.replace('(R)', '').split())}, {os.cpu_count()} cores, shared"


def script(name: str) -> ModuleType:
    """A script of this folder as a module."""
    sys.dont_write_bytecode = True
    loader = importlib.machinery.SourceFileLoader(name.replace("-", "_"), str(HERE / name))
    spec = importlib.util.spec_from_loader(loader.name, loader)
    assert spec is not None
    made = importlib.util.module_from_spec(spec)
    loader.exec_module(made)
    return made
