"""The parts of a release that are built: the program, the libraries, the browser page, the wheel; and the releases of them."""
from __future__ import annotations

import os
import shutil
import subprocess
import sys
import tempfile
from collections.abc import Iterable
from functools import cache
from pathlib import Path

from build.sources import LIBRARY, NATIVE, PROGRAM, ROOT
from build.statements import MADE
from build.toolchain import kit
from release import producer, systems
from release.contents import put_files, put_licences, put_words
from release.kept import make_files, module_of, place_of
from release.origin import commit, moment, say, version
from release.packing import pack, pack_zip, sum_of_file, sums_in, write_sums
from release.publisher import Publisher

# ---- parts


def make_library(folder: Path, anew: Path | None = None) -> None:
    """The libraries for C."""
    folder.mkdir(parents=True, exist_ok=True)
    subprocess.run([ROOT / "bindings/c/build", place_of(LIBRARY, anew), folder], check=True)


@cache
def page_of(module: Path, origin: str) -> str:
    """The text of the browser page, of a module and a commit. (It takes a minute.)"""
    with tempfile.TemporaryDirectory() as folder:
        subprocess.run([ROOT / "bindings/web/build", module, folder, origin], check=True)
        return Path(folder, "tsp.html").read_text()


def make_page(folder: Path, anew: Path | None = None) -> None:
    """The page for a browser."""
    folder.mkdir(parents=True, exist_ok=True)
    (folder / "tsp.html").write_text(page_of(module_of(LIBRARY, anew), commit()))


def make_program(path: Path, anew: Path | None = None) -> None:
    """The program, linked statically: it asks for no version of the C library."""
    path.parent.mkdir(parents=True, exist_ok=True)
    words: list[str | Path] = ["gcc", "-static", "-s", "-Wl,--build-id=none", "-o", path, place_of(PROGRAM, anew)]
    subprocess.run([*words, kit() / "c/libos_c.a", kit() / "c/liblibc_c.a"], check=True)


def make_wheel(library: Path, folder: Path, system: str = NATIVE) -> Path:
    """The wheel of a system, with the library inside; its path."""
    folder.mkdir(parents=True, exist_ok=True)
    with tempfile.TemporaryDirectory() as scratch:
        copy, licences = Path(scratch, "python"), Path(scratch, "licences")
        shutil.copytree(ROOT / "bindings/python", copy, ignore=shutil.ignore_patterns("__pycache__", "build", "dist", "*.egg-info"))
        put_licences(licences, system)
        for name in ("LICENSE-APACHE", "LICENSE-MIT"):
            shutil.copyfile(ROOT / name, licences / name)
        more = {"SOURCE_DATE_EPOCH": str(moment()), "YOKECAIRN_LIBRARY": str(library), "YOKECAIRN_SYSTEM": system,
                "YOKECAIRN_RECHECK": str(ROOT / "examples/recheck.py"), "YOKECAIRN_LICENCES": str(licences)}
        more |= {} if system == NATIVE else {"YOKECAIRN_VERSION": version()}
        words: list[str | Path] = ["/usr/bin/python3", "setup.py", "-q", "bdist_wheel", "--dist-dir", folder]
        made = subprocess.run(words, cwd=copy, env={**os.environ, **more}, stdout=subprocess.PIPE, stderr=subprocess.STDOUT,
                              text=True, check=False)
        if made.returncode:
            sys.exit(f"release: the wheel isn't made:\n{made.stdout}")
    return next(folder.glob("*.whl"))


# ---- releases


def make(dist: Path, anew: Path | None = None, by: Publisher | None = None, without: Iterable[str] = ()) -> Path:
    """The release in a folder, with its publisher if it is public; the path of its tarball."""
    name = f"yokecairn-{version()}-linux-x86_64"
    dist.mkdir(parents=True, exist_ok=True)
    make_files([LIBRARY, PROGRAM], anew)
    with tempfile.TemporaryDirectory() as folder:
        top = Path(folder, name)
        make_program(top / "bin/tsp", anew)
        make_library(top / "lib", anew)
        make_wheel(top / "lib/libtsp.so.0", top / "share/yokecairn")
        if "page" not in without:
            make_page(top / "share/yokecairn", anew)
        put_files(top, without, by)
        put_licences(top / "share/doc/yokecairn/licences")
        if "producer" not in without:
            producer.put(top, anew)
            producer.put_licences(top / "share/doc/yokecairn/licences/producer")
        put_words(top, by, NATIVE)
        write_sums(top)
        pack(top, dist / f"{name}.tar.gz", moment())
    return dist / f"{name}.tar.gz"


def make_other(system: str, dist: Path, by: Publisher | None) -> list[Path]:
    """The release for another system in a folder; the paths of its archive and of its wheel."""
    name, is_windows = f"yokecairn-{version()}-{system}", system.startswith("windows")
    with tempfile.TemporaryDirectory() as folder:
        top, made = Path(folder, name), Path(folder, "made")
        systems.SYSTEMS[system].build(made, module_of(PROGRAM), module_of(LIBRARY))
        for path in sorted(made.iterdir()):
            place = top / ("bin" if path.name in ("tsp", "tsp.exe", "libtsp.dll") else "lib")
            place.mkdir(parents=True, exist_ok=True)
            shutil.move(path, place / path.name)
        library = top / ("bin/libtsp.dll" if is_windows else "lib/libtsp.so.0")
        wheel = make_wheel(library, top / "share/yokecairn", system)
        shutil.copy(wheel, dist)
        if not systems.SYSTEMS["node"].lacking():
            make_page(top / "share/yokecairn")
        put_files(top, ["producer", *([] if (top / "share/yokecairn/tsp.html").exists() else ["page"])], by)
        put_licences(top / "share/doc/yokecairn/licences", system)
        put_words(top, by, system)
        systems.name_system(top, system)
        if is_windows:
            systems.for_windows(top)
        write_sums(top)
        archive = dist / f"{name}.{'zip' if is_windows else 'tar.gz'}"
        (pack_zip if is_windows else pack)(top, archive, moment())
    return [archive, dist / wheel.name]


def make_node(dist: Path, by: Publisher | None) -> list[Path]:
    """The package for npm in a folder; its path."""
    with tempfile.TemporaryDirectory() as folder:
        top = Path(folder, "package")
        systems.build_node(top, module_of(PROGRAM), module_of(LIBRARY), version())
        put_licences(top / "licences", "node")
        put_words(top, by, "node")
        write_sums(top)
        pack(top, dist / f"yokecairn-{version()}.tgz", moment())
    return [dist / f"yokecairn-{version()}.tgz"]


def make_systems(dist: Path, by: Publisher | None) -> list[Path]:
    """The releases for other systems, as far as the machine has what they are made by, and the wheels; their paths."""
    with tempfile.TemporaryDirectory() as scratch:
        make_library(Path(scratch, "lib"))
        made = [Path(shutil.copy(make_wheel(Path(scratch, "lib/libtsp.so.0"), Path(scratch)), dist))]
    for name, system in systems.SYSTEMS.items():
        if name == NATIVE:
            continue
        if system.lacking():
            say(f"{name} isn't made, which needs: apt-get install {' '.join(system.lacking())}")
            continue
        say(f"making {name}")
        made += make_node(dist, by) if name == "node" else make_other(name, dist, by)
    return made


def compare() -> bool:
    """Makes the release twice of nothing kept; whether both have the same bytes."""
    sums: list[dict[str, str]] = []
    for turn in ("first", "second"):
        with tempfile.TemporaryDirectory(prefix=f"yokecairn-{turn}-") as folder:
            made = sums_in(make(Path(folder, "dist"), anew=Path(folder)))
            sums.append({**made, **{file: sum_of_file(Path(folder, file)) for file in MADE.values()}})
    different = sorted(name for name in sums[0].keys() | sums[1].keys() if sums[0].get(name) != sums[1].get(name))
    for name in different:
        print("different:", name)
    print(f"{len(sums[0]) - len(different)} files are the same, {len(different)} are different")
    return not different
