"""Tests of circles.py."""
from __future__ import annotations

import tempfile
import unittest
from pathlib import Path

import circles
from crates_text import crates
from planted import plant

# A small Circles: the ten records in two files, all about one definition of the mathematics and one of the bytes.
RECORDS = """-- Records.
use Rattle.std.specs.Prelude.{ℕ, ◌≡◌}
use Rattle.low.specs.Lengths.{length_of, text_of}
"""
LENGTHS = """-- Lengths.
use Rattle.std.specs.Prelude.{ℕ}

-- the length
abbrev pub length_of : ℕ → ℕ
length_of n = inner n

-- a part of it
abbrev pub inner : ℕ → ℕ
inner n = n

-- the text
abbrev pub text_of : ℕ → ℕ
text_of n = n

abbrev pub unused : ℕ
unused = 3
"""


def records() -> str:
    """Each record with the fields that its circles have."""
    names = {1: "length_of", 2: "text_of", 3: "text_of"}
    told = [RECORDS]
    for record, fields in circles.CIRCLES.items():
        told.append(f"\npub record {record} (n : ℕ) : Type 0 where\n" + "".join(
            f"  pub {field} : {names[circle]} n ≡ n\n" for circle, named in fields.items() for field in named.split()))
    return "".join(told)


class FirstLines(unittest.TestCase):
    """The first line of a file of definitions."""

    def test_words(self) -> None:
        self.assertEqual(circles.first_line([2]), "-- Circle 2 of docs/trust.md.")
        self.assertEqual(circles.first_line([1, 3]), "-- Circles 1 and 3 of docs/trust.md.")
        self.assertEqual(circles.first_line([1, 2, 3]), "-- Circles 1, 2 and 3 of docs/trust.md.")
        self.assertEqual(circles.first_line([]), "")

    def test_a_line_replaces_the_one_before(self) -> None:
        text = "-- Lengths.\nuse a\n"
        befores: list[list[int]] = [[], [1], [1, 3], [1, 2, 3]]
        afters: list[list[int]] = [[], [2], [2, 3]]
        for before in befores:
            for after in afters:
                once = circles.with_first_line(text, before)
                self.assertEqual(circles.with_first_line(once, after), circles.with_first_line(text, after))


class Reached(unittest.TestCase):
    """Which definitions are in which circle."""

    def setUp(self) -> None:
        self.folder = tempfile.TemporaryDirectory()
        root = plant(Path(self.folder.name))
        (root / "crates/low/specs/Records.antt").write_text(records())
        (root / "crates/low/specs/Lengths.antt").write_text(LENGTHS)
        self.lengths = root / "crates/low/specs/Lengths.antt"
        self.root = root

    def tearDown(self) -> None:
        self.folder.cleanup()

    def circles(self) -> circles.Circles:
        return circles.Circles(crates(self.root).values())

    def test_circles(self) -> None:
        found = self.circles()
        names = [sorted(key[1] for key in keys if found.is_here(key) and key[1] not in circles.CIRCLES) for keys in found.reached]
        self.assertEqual(names, [["inner", "length_of"], ["text_of"], []])
        self.assertEqual(found.of_file(self.lengths), [1, 2])
        self.assertEqual(found.files(1)[self.lengths], 6)
        self.assertEqual(found.unresolved(1), [])

    def test_library(self) -> None:
        self.assertEqual(self.circles().library(1), [("std.specs.Prelude", "ℕ"), ("std.specs.Prelude", "◌≡◌")])

    def test_names_through_a_prelude(self) -> None:
        (self.root / "crates/low/specs/Prelude.antt").write_text(
            "unfoldable pub use Rattle.low.specs.Lengths.{length_of}\n"
            "pub use Rattle.low.specs.declared.shape.Shape.TheVariants.{Round}\n")
        found = self.circles()
        self.assertEqual(found.home(("low.specs.Prelude", "length_of")), ("low.specs.Lengths", "length_of"))
        self.assertEqual(found.home(("low.specs.Prelude", "Round")), ("low.specs.declared.shape.Shape", "Shape"))

    def test_why(self) -> None:
        self.assertEqual([link.rpartition(".")[2] for link in self.circles().why("inner")][1:], ["length_of", "inner"])

    def test_a_field_without_a_circle_stops(self) -> None:
        file = self.root / "crates/low/specs/Records.antt"
        file.write_text(file.read_text().replace("pub only_tour :", "pub only_tours :"))
        with self.assertRaises(SystemExit):
            self.circles().reached

    def test_a_record_that_is_gone_stops(self) -> None:
        file = self.root / "crates/low/specs/Records.antt"
        file.write_text(file.read_text().replace("record SaysYes ", "record SaysYea "))
        with self.assertRaises(SystemExit):
            self.circles()


if __name__ == "__main__":
    unittest.main()
