"""The example spread_checks.py, which spreads checks over machines, over two processes of this one, where Dask is installed."""

import os
import subprocess
import tempfile
import unittest
from pathlib import Path

from support import EXAMPLES, PACKAGE, needs_python_with, python_with

LIST = """\
# three checks and a line that is none
{0}/harbour.tsp\t{0}/harbour.tour\tpotentials={0}/harbour.potentials
{0}/rectangle.tsp\t{0}/harbour.tour

{0}/rectangle.tsp\t{0}/rectangle-1-2-3-4.tour
{0}/rectangle.tsp\t{0}/missing.tour
"""
WANTED = """\
{0}/harbour.tsp\t{0}/harbour.tour\t0\tTSP\t8\t226\t226\toptimal
{0}/rectangle.tsp\t{0}/harbour.tour\t1\tTSP\t4\t-\t-\tDimension
{0}/rectangle.tsp\t{0}/rectangle-1-2-3-4.tour\t0\tTSP\t4\t14\t-\tyes
{0}/rectangle.tsp\t{0}/missing.tour\t5\t-\t-\t-\t-\t{0}/missing.tour: No such file or directory
"""
# A tour is no instance; a certificate of another number of nodes is refused whatever the solution is.
REFUSED = """\
{0}/harbour.tour\t{0}/harbour.tour
{0}/rectangle.tsp\t{0}/rectangle-1-2-3-4.tour\tpotentials={0}/harbour.potentials
{0}/harbour.tour\t{0}/rectangle-1-2-3-4.tour
{0}/rectangle.tsp\t{0}/rectangle-1-3-4-2.tour\tpotentials={0}/harbour.potentials
{0}/rectangle.tsp\t{0}/rectangle-1-2-3-4.tour\tlength=15
"""
WANTED_REFUSED = """\
{0}/harbour.tour\t{0}/harbour.tour\t2\t-\t-\t-\t-\tfile 1: wrong kind
{0}/rectangle.tsp\t{0}/rectangle-1-2-3-4.tour\t1\tTSP\t4\t-\t-\tPotentialsDimension
{0}/harbour.tour\t{0}/rectangle-1-2-3-4.tour\t2\t-\t-\t-\t-\tfile 1: wrong kind
{0}/rectangle.tsp\t{0}/rectangle-1-3-4-2.tour\t1\tTSP\t4\t-\t-\tPotentialsDimension
{0}/rectangle.tsp\t{0}/rectangle-1-2-3-4.tour\t1\tTSP\t4\t-\t-\tLengthClaimed 14
"""


class Spread(unittest.TestCase):
    def run_example(self, *words, text=LIST):
        """The status of the example on a list, and what it writes."""
        with tempfile.TemporaryDirectory() as folder:
            path = Path(folder, "list")
            path.write_text(text.format(EXAMPLES))
            paths = [str(PACKAGE), os.environ.get("PYTHONPATH", "")]
            ran = subprocess.run(
                [python_with("distributed"), str(PACKAGE / "examples" / "spread_checks.py"), *words, str(path)],
                cwd=folder,
                env={**os.environ, "PYTHONPATH": os.pathsep.join(filter(None, paths))},
                capture_output=True,
                text=True,
                timeout=120,
            )
        return ran.returncode, ran.stdout, ran.stderr

    @needs_python_with("distributed")
    def test_two_worker_processes(self):
        status, out, err = self.run_example("--workers", "2")
        self.assertEqual((status, out), (5, WANTED.format(EXAMPLES)), err)

    @needs_python_with("distributed")
    def test_an_instance_that_is_refused(self):
        """A faulty instance of two lines, and one on which no solution is accepted: each line says so."""
        status, out, err = self.run_example("--workers", "1", text=REFUSED)
        self.assertEqual((status, out), (2, WANTED_REFUSED.format(EXAMPLES)), err)


if __name__ == "__main__":
    unittest.main()
