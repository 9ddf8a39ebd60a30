"""The files of a release that are of the repository or of the toolchain, in their places."""
from __future__ import annotations

import shutil
import sys
import time
from collections.abc import Iterable
from functools import cache
from pathlib import Path

from build.sources import LIBRARY, NATIVE, PROGRAM, ROOT, below, crates
from build.toolchain import kit
from release import checked, publisher, systems
from release.origin import moment, statement, told, version
from release.pages import DEVELOPERS, of_release
from release.publisher import Publisher

sys.path.append(str(ROOT / "tests/support"))

from circles import Circles  # noqa: E402
from crates_text import crates as crates_of_text  # noqa: E402

# The folder of pages of a release, and where files of the repository are put.
DOCS = "share/doc/yokecairn"
PLACES = [
    ("bindings/c/tsp.h", "include/tsp.h"),
    ("docs/tsp.1", "share/man/man1/tsp.1"),
    ("share/completions/tsp.bash", "share/bash-completion/completions/tsp"),
    ("share/completions/_tsp", "share/zsh/site-functions/_tsp"),
    ("share/completions/tsp.fish", "share/fish/vendor_completions.d/tsp.fish"),
    ("README.md", "share/doc/yokecairn/README.md"),
    ("CHANGELOG.md", "share/doc/yokecairn/CHANGELOG.md"),
    ("CITATION.cff", "share/doc/yokecairn/CITATION.cff"),
    ("LICENSE-APACHE", "share/doc/yokecairn/LICENSE-APACHE"),
    ("LICENSE-MIT", "share/doc/yokecairn/LICENSE-MIT"),
    ("CONTRIBUTING.md", "share/doc/yokecairn/CONTRIBUTING.md"),
    ("SECURITY.md", "share/doc/yokecairn/SECURITY.md"),
    ("docs", "share/doc/yokecairn/docs"),
    ("tests/program/README.md", "share/doc/yokecairn/tests/program/README.md"),
    ("bindings/c/example.c", "share/doc/yokecairn/example.c"),
    ("bindings/python/examples", "share/yokecairn/python"),
    ("bindings/c/tsp.pc.in", "share/yokecairn/tsp.pc.in"),
    ("examples", "share/yokecairn/examples"),
    ("producer", "share/yokecairn/producer"),
    ("bindings/install.sh", "install.sh"),
    ("bindings/uninstall.sh", "share/yokecairn/uninstall.sh"),
    ("bindings/README", "README"),
]
# Links, so that those in the pages lead somewhere.
LINKS = {"share/doc/yokecairn/examples": "../../yokecairn/examples", "share/doc/yokecairn/producer": "../../yokecairn/producer"}


def put_files(top: Path, without: Iterable[str], by: Publisher | None = None) -> None:
    """The files of the repository in their places, and those that are only named. The pages are a release's, which a
    publisher may have."""
    date = time.strftime("%Y-%m-%d", time.gmtime(moment()))
    known = set(told("git", "ls-files", folder=ROOT).splitlines())
    if checked.fault():
        known.discard(checked.FILE)
    folders = [str(Path(*Path(place).parts[:2])) for source, place in PLACES if source.startswith("share/completions/")]
    for source, place in PLACES:
        for path in sorted(name for name in known if name == source or name.startswith(source + "/")):
            target = top / DOCS / DEVELOPERS[path] if path in DEVELOPERS else Path(f"{top / place}{path[len(source):]}")
            target.parent.mkdir(parents=True, exist_ok=True)
            shutil.copy(ROOT / path, target)
            if path.endswith(".md") or path == "bindings/README":
                target.write_text(of_release(path, target.read_text(), without, by, date, folders))
            elif path == "CITATION.cff" and by:
                target.write_text(publisher.citation(target.read_text(), by, date))
    for definition in definitions():
        target = top / DOCS / definition.relative_to(ROOT)
        target.parent.mkdir(parents=True, exist_ok=True)
        shutil.copy(definition, target)
    for place, leads_to in LINKS.items():
        (top / place).symlink_to(leads_to)


@cache
def definitions() -> list[Path]:
    """The files of the definitions on which the meaning of a report depends: docs/trust.md, circles 1 to 3."""
    circles = Circles(crates_of_text().values())
    return sorted({path for circle in (1, 2, 3) for path in circles.files(circle)})


def of_toolchain() -> list[str]:
    """The toolchain's crates whose code may be in the program and the libraries: those that crates.txt names,
    and those that these name."""
    named, found, rlibs = crates(), set(), kit() / "rlibs"
    left = [it for name in (LIBRARY, PROGRAM) for crate in below(name) for it in named[crate][1] if it not in named]
    while left:
        name = left.pop()
        if name not in found:
            found.add(name)
            lines = (rlibs / f"{name}.rlib/format").read_text(errors="replace").splitlines()
            left += [line[4:] for line in lines if line.startswith("dep ")]
    return sorted(found)


def put_licences(folder: Path, system: str = NATIVE) -> None:
    """The licences of the code that is in the program and the libraries, and isn't of this repository."""
    linked = systems.SYSTEMS[system]
    folder.mkdir(parents=True)
    without = []
    for name in of_toolchain():
        files = sorted(path for path in (kit() / "rattle" / name).glob("LICENSE*") if path.is_file())
        for path in files:
            (folder / name).mkdir(exist_ok=True)
            shutil.copyfile(path, folder / name / path.name)
        without += [] if files else [name]
    lines = ["The program and the libraries contain code of these crates, under the licences in the folders here.", ""]
    lines += sorted(path.name for path in folder.iterdir())
    lines += ["", "They also contain code of the toolchain's own library:", ", ".join(without) + "."]
    lines += ["The toolchain gives no licence text for it. BUILT-FROM names the toolchain.", ""]
    lines += [linked.c_library]
    licence = Path("/usr/share/doc", linked.licence or "none", "copyright")
    if licence.exists():
        shutil.copyfile(licence, folder / "c-library.txt")
        lines += ["Its licence is in c-library.txt."]
    if linked.c_library == systems.GLIBC:
        lines += ["To link the program with another C library, make its object by ./release of the sources."]
    (folder / "README").write_text("\n".join(lines) + "\n")


def put_words(top: Path, by: Publisher | None, system: str) -> None:
    """The files of a release that say who gave it out, and of what it was made."""
    (top / "CONTACT").write_text(publisher.contact(by))
    (top / "VERSION").write_text(version() + "\n")
    (top / "BUILT-FROM").write_text(statement(system))
