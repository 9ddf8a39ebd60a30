"""Proves the crates that the program `tsp` depends on, and builds it.

usage: ./build [--help]
       ./build --quick [FILE]
       ./build --unproved-library FOLDER

`rt ci` does both, on a copy of these crates without their wrong edits and tests: it proves as many crates at once as
there are cores, each with the statements of the crates that it uses. Standard error shows the progress. In the copy, one
file in the program's own crate contains the commit and the toolchain's identity, for `tsp --version`; so nothing else is
proved again for another commit.

--quick prints the path of a program for the current sources: the proved one, or else the quick one, which is built if
necessary. The quick program is the same code with checks, for example for overflow, and isn't proved. ./tsp calls this
if files have changed. With FILE, only the quick program is built, at this path, and its version names no commit.
--unproved-library makes the archive of the library, libtsp_c.a, and its module in a folder, without a proof.

The exit status is 0 if everything was made, 4 if the arguments are refused, 75 if the toolchain gives no program without
a proof, and otherwise 70.
"""
import shutil
import sys
from pathlib import Path

sys.dont_write_bytecode = True
sys.path[0] = str(Path(__file__).resolve().parents[1])

from build import quick  # noqa: E402
from build.proved import FAILED, build, say  # noqa: E402

REFUSED = 4


def main(words: list[str]) -> int:
    if words in (["--help"], ["-h"]):
        print(__doc__.strip())
        return 0
    first = words[0] if words else ""
    if len(words) > {"": 0, "--quick": 2, "--unproved-library": 2}.get(first, 0) or words == ["--unproved-library"]:
        say(f"./build takes no such words, and --help says which: {' '.join(words)}")
        return REFUSED
    if shutil.which("rt") is None:
        say("there is no command rt of the toolchain, which builds the program: README.md, Build from source")
        return FAILED
    if first == "--unproved-library":
        return quick.alone(quick.make_archive, Path(words[1]))
    if first == "--quick":
        return quick.alone(quick.make, Path(words[1])) if len(words) == 2 else quick.current()
    return build()


if __name__ == "__main__":
    try:
        sys.exit(main(sys.argv[1:]))
    except OSError as error:
        say(f"the program isn't built: {error}")
        sys.exit(FAILED)
