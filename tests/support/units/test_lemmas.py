"""Tests of scripts/lemmas, on the crates of this repository."""
from __future__ import annotations

import re
import subprocess
import unittest

from crates_text import ROOT, crates

SCRIPT = ROOT / "scripts/lemmas"


def said(*words: str) -> tuple[int, str]:
    """The status of the script, and what it prints."""
    ran = subprocess.run([SCRIPT, *words], stdout=subprocess.PIPE, text=True, check=False)
    return ran.returncode, ran.stdout


class Files(unittest.TestCase):
    """The files that it lists."""

    def test_each_file_once(self) -> None:
        status, told = said()
        listed = re.findall(r"^  (\S+\.antt)  \(", told, re.M)
        there = [str(path.relative_to(ROOT / "crates")) for crate in crates().values()
                 for path in (crate.folder / "proofs").glob("*.antt") if path.name != "Lib.antt"]
        self.assertEqual((status, sorted(listed)), (0, sorted(there)))

    def test_words(self) -> None:
        """As CONTRIBUTING.md shows it."""
        status, told = said("writer")
        self.assertEqual(status, 0)
        self.assertRegex(told, r"(?m)^  tsp_io/proofs/Carrying\.antt  \(\d+, public\)$")
        self.assertEqual(said("no such subject"), (1, ""))


if __name__ == "__main__":
    unittest.main()
