"""What a crate is made of: its sources and those of the crates below it, their sum, and a copy of them. Most modules of
scripts/ import it; it imports none of them."""
from __future__ import annotations

import hashlib
import re
import shutil
import subprocess
from pathlib import Path

ROOT = Path(__file__).resolve().parents[2]
PROGRAM, LIBRARY = "tsp_tool", "tsp_c"
# The parts of a crate that its proof and its code are made of.
PARTS = ("src", "specs", "proofs")
# The line that names the build, and what may be in it: nothing that a text of Rust has another sign for.
UNNAMED = 'const BUILD: &str = "unknown";'
NAMED = re.compile(r"[\w .-]{1,80}$")
# What `--version` of a release says of its system. All are of one length, since those of other systems replace the first
# one in the module that the toolchain made for it.
NATIVE = "linux-x86_64"
SYSTEMS = {
    NATIVE: "for Linux on x86-64",
    "linux-aarch64": "for Linux on ARM-64",
    "windows-x86_64": "for Windows, x86-64",
    "node": "for Node 20 or more",
}
# The logic of all toolchains that have proved these crates. (docs/TESTING.md names the last of them.)
LOGIC = "dac8208d650f15bf"


def crates() -> dict[str, tuple[str, list[str]]]:
    """Each crate's line of crates.txt, and the libraries that it names there."""
    lines = [line for line in (ROOT / "crates.txt").read_text().splitlines() if line.strip()]
    return {line.split(":")[0].split()[0]: (line, line.split(":")[1].split()) for line in lines}


def below(name: str) -> list[str]:
    """The crate and those of the repository that it stands on, each after those that it uses."""
    named = crates()
    found: list[str] = []

    def add(crate: str) -> None:
        for lower in named[crate][1]:
            if lower in named:
                add(lower)
        if crate not in found:
            found.append(crate)

    add(name)
    return found


def sum_of(name: str, root: Path = ROOT) -> str:
    """The sum of the sources of a crate and of all below it, as they are in this folder."""
    named, wanted = crates(), sorted(below(name))
    digest = hashlib.sha256("\n".join(named[crate][0] for crate in wanted).encode())
    for crate in wanted:
        for part in PARTS:
            for path in sorted((root / "crates" / crate / part).rglob("*")):
                if path.is_file():
                    of_file = hashlib.sha256(path.read_bytes()).hexdigest()
                    digest.update(f"\n{path.relative_to(root)} {of_file}".encode())
    return digest.hexdigest()


def lay_out(names: list[str], scratch: Path, parts: tuple[str, ...] = PARTS) -> list[str]:
    """Copies crates and all below them to a folder, without tests and wrong edits; answers their names."""
    named = crates()
    wanted = list(dict.fromkeys(crate for name in names for crate in below(name)))
    (scratch / "crates.txt").write_text("".join(named[crate][0] + "\n" for crate in named if crate in wanted))
    shutil.copy(ROOT / "HANDLES", scratch)
    for crate in wanted:
        (scratch / "crates" / crate).mkdir(parents=True)
        for part in parts:
            whole, copy = ROOT / "crates" / crate / part, scratch / "crates" / crate / part
            if whole.is_dir():
                shutil.copytree(whole, copy)
            elif whole.exists():
                shutil.copy(whole, copy)
    return wanted


def said(*words: str) -> str:
    """The one line that a command prints, or nothing where it fails."""
    try:
        ran = subprocess.run(words, cwd=ROOT, stdin=subprocess.DEVNULL, capture_output=True, text=True)
    except OSError:
        return ""
    line = ran.stdout.strip()
    return line if ran.returncode == 0 and NAMED.match(line) else ""


def strange_logic() -> str:
    """One line where the toolchain has another logic than those that have proved these crates."""
    version = said("rt", "version")
    return "" if version.endswith(f" logic {LOGIC}") else f"note: `rt version` says '{version}', and these crates are proved with logic {LOGIC}"


def identity() -> str:
    """The commit, marked where files of it are changed, and the toolchain's identity."""
    commit = said("git", "describe", "--always", "--exclude=*", "--dirty=-changed")
    if not (ROOT / ".git").exists():
        commit = ""
    return ", ".join((commit or "unknown", said("rt", "version") or "unknown"))


def name_build(scratch: Path, more: str = "") -> None:
    """Puts the identity, and more, into the copy of the program's own crate."""
    named = scratch / "crates" / PROGRAM / "src" / "build.rt"
    text = named.read_text()
    if text.count(UNNAMED) != 1:
        raise SystemExit(f"tsp: {named.name} has no line {UNNAMED}")
    named.write_text(text.replace(UNNAMED, UNNAMED.replace("unknown", identity() + more)))
