"""Makes dist/yokecairn-VERSION-linux-x86_64.tar.gz: the statically linked program, the C library, the Python wheel, the
browser page, the producer's programs, and what belongs to them.

usage: ./release [--public] [--sign KEY] [--without page] [--without producer] [--systems]
       ./release --library FOLDER | --page FOLDER | --modules | --kept | --compare

--public makes a release for publication: CONTACT, CITATION.cff and the pages contain the authors, the contact, the home and
the DOI from publisher.toml. Without this option, the release says that it is a private copy.
--sign KEY signs the tarball: with ssh-keygen if KEY is a key file, and otherwise with gpg and the key of this name. If
signing fails, nothing is made.
A release contains the record of its commit's check, docs/check.json. A public release is refused without this record.
--without page leaves out the browser page, and --without producer leaves out tsp-certify and tsp-potentials, which take
minutes to build; the other pages then don't mention them. If a tool for a part is missing, and the part isn't left out,
nothing is made.
--systems also makes the tarball for Linux on aarch64, the zip for Windows on x86-64, the npm package, and the three
wheels. If a Debian package is missing, what needs it is left out, and a line says so. docs/trust.md, "Other systems",
says what is claimed for these files.
--kept prints where the archive of the library is kept. The status is 1 if there is none, and it can't be made
without proving the crates.
--library FOLDER makes only libtsp.so.0, libtsp.so, libtsp.a and tsp.h, in a folder.
--page FOLDER makes only tsp.html, in a folder.
--modules prints where the modules of the program and of the library are kept, for other systems. The status is 1
if there are none, and they can't be made without proving the crates.
--compare makes everything twice, in two folders and from scratch, and compares the bytes.

From the crates, the toolchain makes two files: the static library's archive and the program's object. This takes
minutes with the statements that the last ./check left in crates/*/out. If they are missing, or belong to other sources,
`rt ci` first proves the crates in a separate folder. Both files are kept in ${XDG_CACHE_HOME:-~/.cache}/yokecairn under a
checksum of everything that they are made from, so a second call doesn't make them again. You need gcc, binutils, and
for the wheel python3 with setuptools and wheel. The page needs wasm-ld and wasm-opt. The tarball's checksum is printed,
and written to a file next to it.
"""
import argparse
import shutil
import subprocess
import sys
from collections.abc import Iterable
from pathlib import Path

sys.dont_write_bytecode = True
sys.path[0] = str(Path(__file__).resolve().parents[1])

from build.sources import LIBRARY, ROOT  # noqa: E402
from release import checked, kept, making, packing, producer, publisher  # noqa: E402
from release.origin import say  # noqa: E402
from release.pages import PARTS  # noqa: E402

# The tools that each part is made by, and the packages of Debian that have them.
TOOLS = {
    "": (("gcc", "ar", "ld", "nm", "objcopy"), "gcc binutils"),
    "page": (("wasm-ld", "wasm-opt"), "lld binaryen"),
    "producer": (("cmake", "c++"), producer.PACKAGES),
    "wheel": (("/usr/bin/python3",), "python3-setuptools python3-wheel"),
}


def need(parts: Iterable[str]) -> None:
    """Ends where a tool of one of these parts is missing."""
    for part in parts:
        tools, packages = TOOLS[part]
        lacking = [tool for tool in tools if shutil.which(tool) is None]
        if part == "wheel" and not lacking:
            tried = subprocess.run([*tools, "-c", "import setuptools, wheel"], capture_output=True, check=False)
            lacking = ["setuptools and wheel for /usr/bin/python3"] if tried.returncode else []
        if part == "producer" and not lacking and producer.is_lacking():
            lacking = ["the headers of Clp, CLI11, TBB and zlib"]
        if lacking:
            way = f", or leave it out by --without {part}" if part in PARTS else ""
            what = f"the part {part} needs" if part else "a release needs"
            sys.exit(f"release: {what} {' and '.join(lacking)}: apt-get install {packages}{way}")


def words() -> argparse.ArgumentParser:
    """The words of the command line."""
    parser = argparse.ArgumentParser(prog="release", description=__doc__, formatter_class=argparse.RawDescriptionHelpFormatter)
    parser.add_argument("--public", action="store_true", help=f"make a release that is published, by whom {publisher.FILE} names")
    parser.add_argument("--sign", metavar="KEY", help="sign the tarball: the file of a key for ssh, or the name of one for gpg")
    parser.add_argument("--without", metavar="PART", choices=PARTS, action="append", default=[], help="leave out the browser page, or the producer")
    parser.add_argument("--systems", action="store_true", help="make the releases for other systems too")
    parser.add_argument("--library", metavar="FOLDER", type=Path, help="make the libraries for C alone")
    parser.add_argument("--page", metavar="FOLDER", type=Path, help="make only the browser page")
    parser.add_argument("--modules", action="store_true", help="say where the modules for other systems are kept")
    parser.add_argument("--kept", action="store_true", help="say whether the library's archive is kept")
    parser.add_argument("--compare", action="store_true", help="make all twice, and compare the bytes")
    return parser


def make_part(asked: argparse.Namespace) -> int:
    """Makes or tells of the one part that is asked for; the exit status."""
    if asked.kept:
        print(kept.place_of(LIBRARY))
        return 0 if kept.is_at_hand([LIBRARY]) else 1
    if asked.modules:
        return 0 if kept.tell_modules() else 1
    kept.make_files([LIBRARY])
    if asked.page:
        making.make_page(asked.page)
    else:
        making.make_library(asked.library)
        shutil.copy(ROOT / "bindings/c/tsp.h", asked.library)
    return 0


def main() -> int:
    asked = words().parse_args()
    try:
        by = publisher.read(ROOT / publisher.FILE) if asked.public else None
    except publisher.Unfit as fault:
        sys.exit(f"release: {fault}")
    is_part = not asked.compare and (asked.kept or asked.modules or asked.library or asked.page)
    need(["page"] if is_part and asked.page else [] if is_part else [part for part in TOOLS if part not in asked.without])
    if is_part:
        return make_part(asked)
    if asked.compare:
        return 0 if making.compare() else 1
    if asked.sign:
        packing.try_key(asked.sign)
    if unchecked := checked.fault():
        told = f"no record of this commit's check ({unchecked}): ./check --record {checked.FILE} writes one"
        if by is not None:
            sys.exit(f"release: there is {told}")
        say(f"it carries {told}")
    made = [making.make(ROOT / "dist", None, by, asked.without)]
    if asked.systems:
        made += making.make_systems(ROOT / "dist", by)
    packing.publish(made, asked.sign)
    if by is None:
        say(f"it says that it is a private copy: --public makes one that is published, by whom {publisher.FILE} names")
    return 0


if __name__ == "__main__":
    sys.exit(main())
