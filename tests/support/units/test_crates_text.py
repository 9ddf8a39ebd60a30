"""Tests of crates_text.py."""
from __future__ import annotations

import tempfile
import unittest
from pathlib import Path

from code_text import Code
from crates_text import Definitions, Edit, Pair, crates, named_impl
from planted import plant


class Texts(unittest.TestCase):
    """Crates, definitions and edits."""

    folder: tempfile.TemporaryDirectory[str]
    root: Path
    shapes: Definitions

    @classmethod
    def setUpClass(cls) -> None:
        cls.folder = tempfile.TemporaryDirectory()
        cls.root = plant(Path(cls.folder.name))
        cls.shapes = Definitions(cls.root / "crates/low/specs/Shapes.antt")

    @classmethod
    def tearDownClass(cls) -> None:
        cls.folder.cleanup()

    def test_crates(self) -> None:
        found = crates(self.root)
        self.assertEqual({name: crate.needs for name, crate in found.items()},
                         {"low": [], "middle": ["low"], "top": ["low", "middle"]})
        self.assertEqual([file.place for file in found["low"].code], ["lib", "shape"])
        self.assertEqual(len(list(found["low"].functions)), 9)

    def test_public_lemmas(self) -> None:
        found = crates(self.root)
        self.assertEqual(found["low"].public_lemmas, {"Shared"})
        self.assertEqual(found["top"].public_lemmas, set())

    def test_imports(self) -> None:
        self.assertEqual(self.shapes.uses["ℕ"], ("std.specs.Prelude", "ℕ"))
        self.assertEqual(self.shapes.aliases, {"these": "low.specs.Sides"})
        self.assertEqual(list(self.shapes.passed_on), ["sides_of as sides"])

    def test_names_passed_on(self) -> None:
        path = self.root / "Prelude.antt"
        path.write_text("pub use Rattle.low.specs.Sides.{sides_of}\nunfoldable pub use Rattle.low.specs.Sides.{square}\n")
        found = Definitions(path)
        self.assertEqual(found.passed_on, {"sides_of": ("low.specs.Sides", "sides_of"), "square": ("low.specs.Sides", "square")})
        self.assertEqual(found.uses, found.passed_on)

    def test_strange_imports_stop(self) -> None:
        path = self.root / "Strange.antt"
        path.write_text("use two words\n")
        with self.assertRaises(SystemExit):
            Definitions(path)

    def test_definitions(self) -> None:
        found = self.shapes.definitions
        self.assertEqual({name: (it.sort, it.is_public) for name, it in found.items()},
                         {"IsArea": ("", True), "Shown": ("record", True), "Way": ("data", True), "hidden": ("", False)})
        self.assertEqual(found["IsArea"].type, "ℕ → Type 0")
        self.assertEqual(found["IsArea"].lines[0], "-- the area")
        self.assertEqual(len(found["IsArea"].lines), 6)
        self.assertEqual(found["Shown"].lines[0], "pub record Shown (n : ℕ) : Type 0 where")
        self.assertEqual(self.shapes.makers, {"up": "Way", "down": "Way"})

    def test_head(self) -> None:
        self.assertEqual(self.shapes.head, "What shapes have: their areas. For all shapes.")

    def test_names_of_impls(self) -> None:
        path = self.root / "crates/low/src/impls.rt"
        heads = {"impl Sum for i64": "I64Sum", "impl<R: Read> Gives for R": "AnyGives", "impl From<Error> for Fault": "FaultFromError",
                 "impl<'a> Points<'a, Plane>": "Points+Plane", "impl<'a, P: Place> Points<'a, P>": "Points", "trait Sum": "Sum",
                 "impl<P> Costs for Points<'_, P>": "PointsCosts", "impl fmt::Display for Fault": "FaultDisplay",
                 "impl Drop for Draft": "Draft"}
        path.write_text("".join(f"{head} {{}}\n" for head in heads))
        self.assertEqual([named_impl(impl) for impl in Code(path).impls], list(heads.values()))
        path.unlink()

    def test_edits(self) -> None:
        edit = Edit(self.root / "crates/low/must-fail/area.edit")
        self.assertEqual(edit.pairs, [Pair("src/shape.rt", "        squared(self.size)", "        squared(self.size) + 1"),
                                      Pair("src/shape.rt", "number * number", "number")])
        self.assertEqual(edit.crate.name, "low")


if __name__ == "__main__":
    unittest.main()
