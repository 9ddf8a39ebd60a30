"""Tests of code_text.py."""
from __future__ import annotations

import tempfile
import unittest
from pathlib import Path

from code_text import Code, blanked, bounds_in, end_of, parts_of, paths_of, without_parameters
from planted import plant


class Signs(unittest.TestCase):
    """Brackets, lists and names."""

    def test_comments_and_texts_are_blank(self) -> None:
        text = 'let a = "}\\"{"; // {\nlet b = \'{\'; let c: &\'a str;'
        self.assertEqual(blanked(text), 'let a = "    ";     \nlet b = " "; let c: &\'a str;')
        self.assertEqual(len(blanked(text)), len(text))

    def test_partners(self) -> None:
        self.assertEqual(end_of("f(a, [b(c)])d", 1), 12)
        self.assertEqual(end_of("<A: Fn(B) -> C, D<E>>(", 0), 21)

    def test_lists(self) -> None:
        self.assertEqual(parts_of("a: (b, c), d: E<F, G>, h: fn(i) -> J,"), ["a: (b, c)", "d: E<F, G>", "h: fn(i) -> J"])

    def test_names_of_types(self) -> None:
        self.assertEqual(without_parameters("crate::tree::Weights<'_, Vec<C>>"), "Weights")

    def test_bounds(self) -> None:
        self.assertEqual(bounds_in("'a, W: Costs + 'a, const N: usize, E"), {"W": "Costs + 'a", "N": "usize", "E": ""})

    def test_imports(self) -> None:
        found = list(paths_of("std::io::{self, Read, Write as Out, rt::{a, b}}"))
        self.assertEqual(found, [("std::io", ""), ("std::io::Read", ""), ("std::io::Write", "Out"), ("std::io::rt::a", ""),
                                 ("std::io::rt::b", "")])


class Files(unittest.TestCase):
    """A file of code."""

    folder: tempfile.TemporaryDirectory[str]
    shape: Code
    pick: Code
    library: Code

    @classmethod
    def setUpClass(cls) -> None:
        cls.folder = tempfile.TemporaryDirectory()
        root = plant(Path(cls.folder.name))
        cls.shape = Code(root / "crates/low/src/shape.rt")
        cls.pick = Code(root / "crates/middle/src/pick.rt")
        cls.library = Code(root / "crates/low/src/lib.rt")

    @classmethod
    def tearDownClass(cls) -> None:
        cls.folder.cleanup()

    def test_where_it_is(self) -> None:
        self.assertEqual((self.shape.crate, self.shape.place), ("low", "shape"))
        self.assertEqual(self.library.head, "Shapes, and what they have in common. More of them.")

    def test_imports(self) -> None:
        self.assertEqual(self.pick.uses["Shape"], "low::Shape")
        self.assertEqual(self.library.passed_on["largest"], "shape::largest")
        self.assertEqual(self.pick.passed_on, {})

    def test_functions(self) -> None:
        names = [function.shown for function in self.shape.functions]
        self.assertEqual(names, ["Shape::area", "Shape::double", "Circle::of", "Circle::area", "Square::area", "squared", "corner",
                                 "largest", "area_law"])

    def test_contract(self) -> None:
        of = self.shape.functions[2]
        told = [(clause.kind, clause.name, clause.text) for clause in of.clauses]
        self.assertEqual(told, [("requires", "", "1 ≤ size"), ("ensures", "size", "result.size ≡ size")])
        self.assertEqual((of.result, of.parameters), ("Circle", (("size", "u64"),)))
        self.assertIn("Circle { size }", of.body or "")
        self.assertNotIn("told = \"}\"", of.body or "")

    def test_traits(self) -> None:
        area, double, _, of_circle, *_ = self.shape.functions
        self.assertTrue(area.is_asked and double.is_asked and area.body is None and double.body is not None)
        self.assertEqual((of_circle.owner, of_circle.trait, of_circle.is_asked), ("Circle", "Shape", False))
        self.assertTrue(of_circle.takes_self)
        self.assertEqual(of_circle.arguments, ())

    def test_generics_and_where(self) -> None:
        largest = self.shape.functions[7]
        self.assertEqual(largest.bounds, {"S": "Shape", "N": "usize"})
        self.assertEqual(largest.parameters[1], ("least", "Option<(u64, u64)>"))
        self.assertEqual(largest.result, "Result<u64, char>")

    def test_laws_and_tests(self) -> None:
        self.assertTrue(self.shape.functions[8].is_law and self.shape.functions[8].changes_nothing)
        self.assertEqual([function.name for function in self.pick.functions if function.is_test], ["picks_nothing"])

    def test_comments(self) -> None:
        summaries = [function.summary for function in self.shape.functions]
        self.assertEqual(summaries[:3], ["The area of it", "Twice the area", "A circle"])
        self.assertEqual(self.shape.items[1].comment, ("A circle of a size.",))

    def test_types(self) -> None:
        trait, circle, square = self.shape.items
        self.assertEqual((trait.kind, circle.name, square.name), ("trait", "Circle", "Square"))
        self.assertEqual((circle.fields, square.fields), ({"size": "u64"}, {"sides": "&'a [u64]"}))
        self.assertEqual(self.pick.items[0].variants, {"Round": "(Circle)", "Cornered": "(u64, u64)", "Nothing": ""})

    def test_function_at_a_place(self) -> None:
        found = self.shape.function_at(self.shape.text.index("squared(self.size)"))
        self.assertEqual(found and found.shown, "Circle::area")
        self.assertIsNone(self.shape.function_at(self.shape.text.index("A square")))


if __name__ == "__main__":
    unittest.main()
