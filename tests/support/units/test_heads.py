"""Tests of heads.py."""
from __future__ import annotations

import tempfile
import unittest
from pathlib import Path

from crates_text import crates
from heads import lost
from planted import plant


class Heads(unittest.TestCase):
    """What the head of a file may say of others."""

    def lost(self, head: str) -> list[str]:
        """The faults of a head in the crate `middle`."""
        with tempfile.TemporaryDirectory() as folder:
            found = crates(plant(Path(folder)))
            return lost(found["middle"], head, found)

    def test_files(self) -> None:
        self.assertEqual(self.lost("See src/pick.rt; Shapes.antt of low."), [])

    def test_lost_files(self) -> None:
        self.assertEqual(self.lost("See src/pack.rt and Shapes.antt."), ["there is no src/pack.rt", "there is no Shapes.antt"])

    def test_names(self) -> None:
        self.assertEqual(self.lost("`cornered` in src/pick.rt, `Pick::Round` in `pick.rt`."), [])

    def test_lost_names(self) -> None:
        self.assertEqual(self.lost("`corner` in src/pick.rt."), ["corner isn't in src/pick.rt"])


if __name__ == "__main__":
    unittest.main()
