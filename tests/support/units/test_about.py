"""Tests of scripts/about: on the planted crates who uses what, and on this repository a file of each kind."""
from __future__ import annotations

import tempfile
import unittest
from pathlib import Path, PurePath

from around.kinds import Kind, kind_of
from around.outside import Outside, first_paragraph, first_remark
from around.told import Told, edits_of_crate, few, sentence, told_of_crate
from around.users import Users
from code_text import Function
from crates_text import ROOT, crates
from planted import plant

MOST_LINES = 50  # that are printed of a file without --all
FILES = {
    "low/specs/Prelude.antt": "-- Names.\npub use Rattle.low.specs.Shapes.{IsArea}\n",
    "low/proofs/Sums.antt": "-- Sums.\nuse Rattle.low.specs.Prelude.{IsArea}\n\npub sums : ℕ\nsums = 3\n",
    "low/proofs/shape/squared/Answers.antt": "-- Goals.\nuse Rattle.low.proofs.Sums.{sums}\n",
}


class Planted(unittest.TestCase):
    """The planted crates, with these files."""

    def setUp(self) -> None:
        self.folder = tempfile.TemporaryDirectory()
        self.root = plant(Path(self.folder.name))
        for name, text in FILES.items():
            path = self.root / "crates" / name
            path.parent.mkdir(parents=True, exist_ok=True)
            path.write_text(text)
        self.users = Users(crates(self.root))
        self.users.__dict__["walks"] = []  # (those of this repository begin elsewhere)

    def tearDown(self) -> None:
        self.folder.cleanup()

    def function(self, name: str) -> Function:
        return next(it for file in self.users.files.values() for it in file.functions if it.shown == name)

    def lines(self, name: str) -> list[str]:
        return [line.strip() for line in Told(self.users, self.root / "crates" / name, has_all=False).lines()]

    def test_callers(self) -> None:
        """Those after a refusal too, and those of a method through its trait."""
        self.assertEqual([it.shown for it in self.users.callers(self.function("failed"))], ["main"])
        self.assertEqual([it.shown for it in self.users.callers(self.function("Circle::area"))], ["Shape::double", "largest"])
        self.assertEqual([it.shown for it in self.users.callers(self.function("corner"))], ["Square::area"])

    def test_what_other_crates_see(self) -> None:
        self.assertTrue(self.users.is_exported(self.function("largest")))
        self.assertTrue(self.users.is_exported(self.function("Circle::of")))
        self.assertFalse(self.users.is_exported(self.function("squared")))
        self.assertEqual(self.users.above(self.users.crates["low"]), ["middle", "top"])

    def test_importers(self) -> None:
        """Types by the imports through lib.rt; definitions through a prelude."""
        top = self.root / "crates"
        self.assertEqual(self.users.importers[top / "low/src/shape.rt"]["Circle"], {top / "middle/src/pick.rt", top / "top/src/main.rt"})
        shapes = next(it for it in self.users.crates["low"].specs if it.path.stem == "Shapes")
        self.assertEqual(self.users.names_imported(shapes), {"IsArea": {top / "low/src/shape.rt", top / "low/proofs/Sums.antt"}})

    def test_code(self) -> None:
        told = self.lines("low/src/shape.rt")
        self.assertIn("largest: picked (middle/pick)", told)
        self.assertIn("Circle: middle/src/pick.rt, top/src/main.rt", told)
        self.assertIn("functions that only this file calls: 2", told)
        self.assertIn("if a contract, a type or an export changed, rt check also in middle, top", told)
        self.assertIn("rt must-fail low has 1 about it: area", told)

    def test_proofs(self) -> None:
        told = self.lines("low/proofs/shape/squared/Answers.antt")
        self.assertIn("the goals of squared (shape): The square of a number", told)
        self.assertIn("callers of squared: Circle::area (shape)", told)
        self.assertIn("cd crates/low && rt check --only shape::squared, then rt check", told)
        self.assertIn("low: proofs of shape/squared", self.lines("low/proofs/Sums.antt"))

    def test_type_of_a_method(self) -> None:
        area = next(it for it in self.users.crates["low"].functions if it.owner == "Circle" and it.trait == "Shape")
        told = Told(self.users, self.root / "crates/low/src/shape.rt", has_all=True)
        self.assertEqual(told.type_says(area), ". Circle: A circle of a size")

    def test_file_without_functions(self) -> None:
        path = self.root / "crates/low/src/limits.rt"
        path.write_text("//! Limits.\n\n/// The most shapes.\npub const MOST: u64 = 3;\n")
        told = Told(Users(crates(self.root)), path, has_all=True).rule()
        self.assertEqual(told, ["it declares MOST, and no function: whoever uses these, and definitions that name them, rely on "
                                "their names, types and values"])

    def test_edits_of_a_file(self) -> None:
        low = self.users.crates["low"]
        self.assertEqual(edits_of_crate(self.users, low, low.folder / "src/shape.rt"), ["src/shape.rt", "  Circle::area", "    must-fail/area"])
        self.assertEqual(edits_of_crate(self.users, low, low.folder / "src/lib.rt"), ["no wrong edit changes it"])

    def test_edit(self) -> None:
        told = self.lines("low/must-fail/area.edit")
        self.assertIn("it changes: Circle::area (shape), squared (shape)", told)
        self.assertIn("tests/repository/edits --bare low/area   (the prover has to refuse it)", told)


class Here(unittest.TestCase):
    """The crates of this repository."""

    users = Users(crates())

    def test_each_kind(self) -> None:
        """A file of each kind: all is said, on about a screen."""
        files: dict[Kind, Path] = {}
        for path in sorted((ROOT / "crates").rglob("*")):
            if path.is_file() and path.suffix in (".rt", ".antt", ".edit") and "out" not in path.parts:
                files.setdefault(Told(self.users, path, has_all=False).kind, path)
        self.assertEqual(set(files), set(Kind))
        for path in files.values():
            told = Told(self.users, path, has_all=False).lines()
            self.assertLessEqual(len(told), MOST_LINES, path)
            self.assertLessEqual({"where", "who uses it", "what you may change", "after a change"}, set(told), path)

    def test_definitions(self) -> None:
        told = Told(self.users, ROOT / "crates/tsp_theory/specs/Tour.antt", has_all=True).lines()
        records = next(line for line in told if "records of `yes`" in line)
        self.assertIn("IsAcceptedTour", records)

    def test_walks(self) -> None:
        """Through the code that a proof, a lemma or a wrong edit is about."""
        def walks(name: str) -> list[str]:
            return [line.strip() for line in Told(self.users, ROOT / "crates" / name, has_all=True).lines() if "walks (scripts/walk)" in line]

        self.assertIn("check --branches (", walks("tsp_bound/proofs/boxes/joined/Answers.antt")[0])
        self.assertIn("through src/compare_run.rt", walks("tsp_judge/must-fail/length_as_the_bound.edit")[0])
        self.assertIn("walks (scripts/walk) through src/laws.rt: on no walk", walks("tsp_cases/proofs/CaseLaws.antt"))

    def test_edit_of_a_definition(self) -> None:
        told = "\n".join(Told(self.users, ROOT / "crates/tsp_cases/wrong-edits/def_sixty_two_sets.edit", has_all=True).lines())
        self.assertIn("it changes: AreTooMany (specs/Crossings.antt, circle 3), MOST_SETS (src/family.rt)", told)
        self.assertIn("files that import AreTooMany", told)
        self.assertIn("IsTourWithBound", told)

    def test_crate(self) -> None:
        told = told_of_crate(self.users, self.users.crates["tsp_tool"])
        self.assertTrue(any(line.startswith("src/main.rt") for line in told))


class Others(unittest.TestCase):
    """The files outside crates/."""

    outside = Outside()

    def test_each_has_a_place(self) -> None:
        lost = [path for path in self.outside.files if self.outside.place(path) is None]
        self.assertEqual(lost, [])
        self.assertEqual([path for path in self.outside.places if not (ROOT / path).exists()], [])

    def test_users(self) -> None:
        """Modules that import it, headers that are included, pages, and suites."""
        self.assertIn("users.py", self.outside.users(PurePath("scripts/walks/walk.py"))["scripts/around"])
        self.assertIn("quotients.h", self.outside.users(PurePath("producer/src/cuts/families.cpp"))["producer/src/cuts"])
        self.assertIn("TESTING.md", self.outside.users(PurePath("docs/format.md"))["docs"])
        self.assertEqual(self.outside.suites(PurePath("tests/second/run")), ["second"])

    def test_lines(self) -> None:
        told = self.outside.lines(PurePath("bench/whole"))
        self.assertIn("  Times whole runs of the program, and compares them with a native program: bench/whole [PROGRAM] [--rows TEXT]", told)
        self.assertLessEqual({"where", "who uses it", "what you may change", "after a change"}, set(told))

    def test_heads(self) -> None:
        self.assertEqual(first_remark('#!/usr/bin/env python3\n"""One\nthing.\n\nMore."""\nx = """y"""\n'), "One thing.")
        self.assertEqual(first_remark("/* One\n * thing. */\n"), "One thing.")
        self.assertEqual(first_remark("#!/bin/sh\n# One\n# thing.\n#\n# More.\nexit\n"), "One thing.")
        self.assertEqual(first_paragraph("# Title\n\n<!-- mark -->\n[One](two) thing.\n\nMore.\n"), "One thing.")


class Words(unittest.TestCase):
    """What is said in words."""

    def test_first_sentences(self) -> None:
        self.assertEqual(sentence("Circle 1 of docs/trust.md.\nWhat is 1.5, as [`a`](b) says. More."), "What is 1.5, as `a` says")
        self.assertEqual(sentence("In rounds (O. Borůvka). More."), "In rounds (O. Borůvka)")

    def test_few(self) -> None:
        self.assertEqual(few(["a", "b", "a", "c"], 2), "a, b and 1 more")
        self.assertEqual(few([], 2), "none")

    def test_kinds(self) -> None:
        self.assertEqual(kind_of(PurePath("specs/states/Kept.antt"), []), Kind.STATES)
        self.assertEqual(kind_of(PurePath("specs/Tour.antt"), [1]), Kind.RULED)
        self.assertEqual(kind_of(PurePath("proofs/prim/grow/Answers.antt"), []), Kind.PROOF)
        self.assertIsNone(kind_of(PurePath("Cargo.toml"), []))


if __name__ == "__main__":
    unittest.main()
