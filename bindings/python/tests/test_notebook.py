"""The notebook examples/potentials.ipynb, whose cells run as a script."""

import json
import shutil
import subprocess
import tempfile
import unittest
from pathlib import Path

from support import PACKAGE, ROOT, needs_python_with, python_with

BOOK = PACKAGE / "examples/potentials.ipynb"


class Notebook(unittest.TestCase):
    @needs_python_with("matplotlib")
    def test_places(self):
        """The first cell finds the examples from its own folder, in the repository and as installed, and from the one above."""
        cells = json.loads(BOOK.read_text())["cells"]
        first = next("".join(cell["source"]) for cell in cells if cell["cell_type"] == "code")
        script = f"import sys\nsys.path.insert(0, {str(PACKAGE)!r})\nimport matplotlib\nmatplotlib.use('Agg')\n{first}\nprint(problem)"
        with tempfile.TemporaryDirectory() as folder:
            installed = Path(folder, "share/yokecairn")
            shutil.copytree(BOOK.parent, installed / "python")
            shutil.copytree(ROOT / "examples", installed / "examples")
            for place in (ROOT, BOOK.parent, installed / "python", installed):
                ran = subprocess.run([python_with("matplotlib"), "-c", script], cwd=place, capture_output=True, text=True)
                self.assertEqual((ran.returncode, ran.stderr), (0, ""), place)

    @needs_python_with("matplotlib")
    def test_cells(self):
        cells = json.loads(BOOK.read_text())["cells"]
        code = ["".join(cell["source"]) for cell in cells if cell["cell_type"] == "code"]
        with tempfile.TemporaryDirectory() as folder:
            pictures = f"for at in plt.get_fignums(): plt.figure(at).savefig({folder!r} + f'/{{at}}.png')"
            before = f"import sys\nsys.path.insert(0, {str(PACKAGE)!r})\nimport matplotlib\nmatplotlib.use('Agg')"
            script = "\n\n".join([before, *code, pictures])
            ran = subprocess.run([python_with("matplotlib"), "-c", script], cwd=ROOT, capture_output=True, text=True)
            self.assertEqual((ran.returncode, ran.stderr), (0, ""))
            self.assertEqual(len(list(Path(folder).iterdir())), 4)
            report = ran.stdout.splitlines()[-1]
            self.assertRegex(report, r"^<Report yes: TSP nodes=80 length=2461 bound=24[0-6]\d")

    def test_no_outputs_are_kept(self):
        for cell in json.loads(BOOK.read_text())["cells"]:
            self.assertFalse(cell.get("outputs"))
            self.assertIsNone(cell.get("execution_count"))


if __name__ == "__main__":
    unittest.main()
