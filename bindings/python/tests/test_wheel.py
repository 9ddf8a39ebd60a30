"""The wheel: built twice with the same bytes, installed in an environment of its own, and used there."""

import hashlib
import os
import shutil
import subprocess
import sys
import tempfile
import unittest
import zipfile
from pathlib import Path

from support import EXAMPLES, PACKAGE, needs_python_with, python_with
from yokecairn import _library

WHEEL = "yokecairn-{}-py3-none-manylinux2014_x86_64.whl"


@needs_python_with("setuptools", "wheel")
class Wheel(unittest.TestCase):
    def build(self, folder):
        """The wheel, built from a copy of the package."""
        source = Path(folder, "source")
        skipped = shutil.ignore_patterns("__pycache__", "build", "dist", "*.egg-info")
        shutil.copytree(PACKAGE, source, ignore=skipped)
        for name in ("LICENSE-MIT", "clap/LICENSE"):  # as ./release puts those of the code that is linked
            Path(folder, "licences", name).parent.mkdir(parents=True, exist_ok=True)
            Path(folder, "licences", name).write_text(name)
        subprocess.run(
            [python_with("setuptools", "wheel"), "setup.py", "-q", "bdist_wheel", "--dist-dir", str(Path(folder, "dist"))],
            cwd=source,
            env={**os.environ, "SOURCE_DATE_EPOCH": "1700000000", "YOKECAIRN_LIBRARY": _library.path(),
                 "YOKECAIRN_RECHECK": str(EXAMPLES / "recheck.py"), "YOKECAIRN_LICENCES": str(Path(folder, "licences"))},
            check=True,
            capture_output=True,
        )
        (wheel,) = Path(folder, "dist").iterdir()
        return wheel

    def test_built_twice_and_used(self):
        with tempfile.TemporaryDirectory() as one, tempfile.TemporaryDirectory() as two:
            wheel, other = self.build(one), self.build(two)
            import yokecairn

            self.assertEqual(wheel.name, WHEEL.format(yokecairn.__version__))
            sums = {hashlib.sha256(path.read_bytes()).hexdigest() for path in (wheel, other)}
            self.assertEqual(len(sums), 1)
            names = zipfile.ZipFile(wheel).namelist()
            for name in ("libtsp.so", "py.typed", "__main__.py", "recheck.py", "standings.schema.json", "licences/LICENSE-MIT", "licences/clap/LICENSE"):
                self.assertIn(f"yokecairn/{name}", names)
            self.use(wheel, Path(two, "environment"))

    def use(self, wheel, place):
        """Installs the wheel in an environment, and checks an example there."""
        subprocess.run([sys.executable, "-m", "venv", str(place)], check=True, capture_output=True)
        python = str(place / "bin" / "python")
        clean = {key: value for key, value in os.environ.items() if not key.startswith(("YOKECAIRN", "PYTHON"))}
        subprocess.run(
            [python, "-m", "pip", "install", "-q", "--no-index", "--no-deps", str(wheel)],
            check=True,
            capture_output=True,
            env=clean,
        )
        words = [EXAMPLES / "harbour.tsp", EXAMPLES / "harbour.tour", "--potentials", EXAMPLES / "harbour.potentials"]
        ran = subprocess.run(
            [python, "-m", "yokecairn", "check", *map(str, words)], cwd=place, env=clean, capture_output=True
        )
        self.assertEqual((ran.returncode, ran.stderr), (0, b""))
        self.assertEqual(ran.stdout, b"type TSP\nnodes 8\nlength 226\nbound 226\noptimal\nyes\n")


if __name__ == "__main__":
    unittest.main()
