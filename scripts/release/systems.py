"""What a release has for other systems: their tools, what is made of the toolchain's modules, the files, the licences."""
from __future__ import annotations

import shutil
import subprocess
from dataclasses import dataclass
from pathlib import Path

from build.sources import NATIVE, ROOT

CLAIM = """This is the same proved code, compiled in a way that the toolchain doesn't offer: the toolchain's promise covers only
Linux on x86-64. The host's calls are written by hand, and were tested under qemu, wine or Node, not on real machines.
If in doubt, the program for Linux on x86-64 is the reference."""


@dataclass(frozen=True)
class System:
    """A system: the commands that it is made by, each with the package of Debian that has it, and the licence of the C
    library that is linked into it: what it is called, and where Debian has it."""

    name: str
    tools: dict[str, str]
    c_library: str = ""
    licence: str = ""

    def lacking(self) -> list[str]:
        """The packages of the commands that aren't there."""
        return sorted({package for tool, package in self.tools.items() if shutil.which(tool) is None})

    def build(self, folder: Path, program: Path, library: Path) -> None:
        """Makes the program and the libraries of their modules."""
        words: list[str | Path] = [ROOT / "bindings/systems/build", self.name, folder, "--program", program, "--library", library]
        subprocess.run(words, check=True)

    def compiler(self) -> str:
        """The line by which the system's gcc names itself."""
        gcc = next((tool for tool in self.tools if tool.endswith("gcc")), "wasm-opt")
        return subprocess.run([gcc, "--version"], check=True, capture_output=True, text=True).stdout.splitlines()[0]


GLIBC = "The program is linked statically with the GNU C library (LGPL, version 2.1 or later), the libraries aren't."
MINGW = "The program and the library contain code of the runtime of mingw-w64, and of gcc's under its exception."
WASM = "The modules contain no C library."
SYSTEMS = {
    system.name: system
    for system in (
        System(NATIVE, {"gcc": "gcc"}, GLIBC, "libc6"),
        System("linux-aarch64", {"aarch64-linux-gnu-gcc": "gcc-aarch64-linux-gnu"}, GLIBC, "libc6-dev-arm64-cross"),
        System("windows-x86_64", {"x86_64-w64-mingw32-gcc": "gcc-mingw-w64-x86-64"}, MINGW, "mingw-w64-x86-64-dev"),
        System("node", {"wasm-ld": "lld", "wasm-opt": "binaryen"}, WASM),
    )
}


def build_node(folder: Path, program: Path, library: Path, version: str) -> None:
    """Makes the package for Node of the modules."""
    words: list[str | Path] = [ROOT / "bindings/node/build", folder, "--program", program, "--library", library, "--version", version]
    subprocess.run(words, check=True)


# Where the release for Windows has the files that are made for a Unix, by the beginnings of their places; those that
# begin in no such way aren't in it.
ON_WINDOWS = {
    "include/": "include/",
    "share/doc/yokecairn/": "doc/",
    "share/yokecairn/examples/": "examples/",
    "share/yokecairn/python/": "python/",
}
# The words of a release's README that name its system, and the words that replace them.
OF_README = "This release is for Linux on x86-64 processors from about 2009 on."
SPOKEN = {"linux-aarch64": "Linux on aarch64", "windows-x86_64": "Windows on x86-64"}
READ_ME = """Yokecairn for Windows on x86-64

bin/tsp.exe, bin/libtsp.dll   the program and the library; they need no other files
lib/libtsp.dll.a, include/    what a C compiler needs for the library
*.whl                         the Python package: pip install FILE (its library is tested only from C)
tsp.html                      the browser page
doc/, examples/, python/      the pages and what they show; where they say PREFIX/share/yokecairn, use this folder
SHA256SUMS, BUILT-FROM        a checksum of each file; the commit and the toolchain

{claim}
"""


def name_system(top: Path, system: str) -> None:
    """Says in a release's README which system it is for, and what is claimed of it."""
    text = (top / "README").read_text()
    if OF_README not in text:
        raise ValueError(f"bindings/README hasn't the words: {OF_README}")
    (top / "README").write_text(text.replace(OF_README, f"This release is for {SPOKEN[system]}.\n\n{CLAIM}"))


def for_windows(top: Path) -> None:
    """Lays a release's folder out as one for Windows."""
    # (links become what they lead to)
    unix = top.with_name("unix")
    top.rename(unix)
    for path in sorted(unix.rglob("*")):
        place = path.relative_to(unix).as_posix()
        begins = next((begin for begin in ON_WINDOWS if place.startswith(begin)), None)
        if path.is_file() and begins and not path.is_symlink():
            target = top / (ON_WINDOWS[begins] + place[len(begins) :])
        elif path.is_file() and (path.suffix in (".whl", ".html") or place in ("BUILT-FROM", "CONTACT", "VERSION")):
            target = top / path.name
        elif path.is_file() and path.parent in (unix / "bin", unix / "lib"):
            target = top / place
        else:
            continue
        target.parent.mkdir(parents=True, exist_ok=True)
        shutil.copy(path, target)
    shutil.rmtree(unix)
    (top / "README.txt").write_text(READ_ME.format(claim=CLAIM))
