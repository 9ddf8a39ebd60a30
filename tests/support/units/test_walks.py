"""Tests of scripts/walks."""
from __future__ import annotations

import tempfile
import unittest
from pathlib import Path
from typing import Any

from crates_text import crates
from planted import plant
from walks import page
from walks.body import Body
from walks.walk import Unknown, Walk, all_walks
from walks.world import World, arguments_of, head_of, inner_of, plain

TABLE: dict[str, Any] = {"begin": "main", "aside": [], "leaves": [], "takes": {}, "walk": [{"name": "all", "title": "all"}]}


class Types(unittest.TestCase):
    """Types as they are written."""

    def test_heads(self) -> None:
        self.assertEqual(head_of("&'a mut tsp::Vec<Vec<u8>>"), "Vec")
        self.assertEqual(plain("&mut [u8]"), "[u8]")

    def test_what_is_inside(self) -> None:
        self.assertEqual(arguments_of("Result<Option<A>, B>"), ["Option<A>", "B"])
        self.assertEqual(arguments_of("(A, B<C>)"), ["A", "B<C>"])
        self.assertEqual(inner_of("&'a [(u32, i64)]"), "(u32, i64)")
        self.assertEqual(inner_of("Setting<C>"), "Setting<C>")


class Walks(unittest.TestCase):
    """Walks through the planted crates."""

    def setUp(self) -> None:
        self.folder = tempfile.TemporaryDirectory()
        self.root = plant(Path(self.folder.name))
        self.world = World(crates(self.root))

    def tearDown(self) -> None:
        self.folder.cleanup()

    def walk(self, **more: Any) -> Walk:
        return all_walks(self.world, {**TABLE, **more})[0]

    def own(self, **own: Any) -> Walk:
        """A walk with entries of its own, where the table leaves `largest`."""
        return self.walk(leaves=["largest"], walk=[{"name": "all", "title": "all", **own}])

    def names(self, walk: Walk) -> list[str]:
        return [function.shown for function in walk.calls]

    def body(self, name: str) -> Body:
        function = next(it for file in self.world.files.values() for it in file.functions if it.shown == name)
        return Body(self.world, function, {})

    def test_calls_by_types(self) -> None:
        self.assertEqual([it.shown for it in self.body("cornered").calls], ["Square::area"])
        self.assertEqual([it.shown for it in self.body("largest").calls], ["Shape::double", "Shape::area"])
        self.assertEqual(self.body("main").made, {"Pick"})

    def test_types_that_are_made_say_which_method_a_trait_has(self) -> None:
        found = self.names(self.walk(takes={"Pick": ["Round"]}))
        self.assertIn("Circle::area", found)
        self.assertNotIn("Square::area", found)
        self.assertNotIn("corner", found)

    def test_laws_and_refusals_are_left(self) -> None:
        found = self.names(self.walk())
        self.assertNotIn("area_law", found)
        self.assertNotIn("failed", found)
        self.assertIn("shown", found)

    def test_choices(self) -> None:
        found = self.names(self.walk(takes={"Pick": ["Cornered"]}))
        self.assertIn("cornered", found)
        self.assertNotIn("largest", found)
        self.assertNotIn("refused", found)

    def test_leaves_and_aside(self) -> None:
        self.assertNotIn("largest", self.names(self.walk(leaves=["largest"])))
        self.assertFalse(any("Shape" in name for name in self.names(self.walk(aside=["low"]))))

    def test_what_a_walk_has_of_its_own(self) -> None:
        self.assertIn("failed", self.names(self.own(refused=True)))
        self.assertNotIn("shown", self.names(self.own(leaves=["shown"])))
        self.assertIn("largest", self.names(self.own(enters=["largest"])))

    def test_a_call_from_c(self) -> None:
        self.assertEqual(self.names(self.own(begin="area_of"))[:2], ["area_of", "cornered"])
        with self.assertRaises(Unknown):
            self.own(begin="cornered")

    def test_a_table_may_not_name_what_is_gone(self) -> None:
        parts: list[dict[str, Any]] = [{"leaves": ["gone"]}, {"takes": {"Pick": ["Gone"]}}, {"takes": {"Gone": ["Round"]}}, {"aside": ["gone"]},
                                       {"walk": [{"name": "all", "title": "all", "enters": ["gone"]}]}]
        for part in parts:
            with self.assertRaises(Unknown):
                self.walk(**part)

    def test_rows_and_figures(self) -> None:
        walk = self.walk(takes={"Pick": ["Round"]})
        rows = [(depth, function.shown) for depth, function in walk.flat()]
        self.assertEqual(rows, [(0, "main"), (1, "Circle::of"), (1, "picked")])
        functions, files, count, shown, changes = walk.figures()
        self.assertEqual((files, count, shown, changes), (3, 3, 3, 2))
        self.assertEqual(functions, len(walk.calls))

    def test_one_row_for_each_file(self) -> None:
        walk = self.walk()
        self.assertEqual({function.path for _, function in walk.flat()}, {function.path for function in walk.calls})

    def test_outline(self) -> None:
        walk = self.walk(takes={"Pick": ["Round"]})
        self.assertEqual([(depth, it.shown) for depth, it in walk.flat(walk.outline(0))], [(0, "main")])
        self.assertEqual(list(walk.flat(walk.outline(1))), list(walk.flat()))

    def test_what_is_printed(self) -> None:
        walk = self.walk()
        self.assertEqual(page.lines_of(walk, walk.rows)[1], "  Circle::of  low/shape    A circle")
        self.assertEqual(page.drawing(self.world.crates), ["    top", "    middle", "    low"])
        self.assertIn("- low: Shapes, and what they have in common", page.list_of_crates(self.world.crates))

    def test_page(self) -> None:
        walk, names = self.walk(), ["drawing", "crates", "figures"]
        text = "\n".join(f"{name}:\n<!-- printed {name} -->\nas it was\n<!-- printed -->\n" for name in names)
        written = page.printed_into(text, self.world, [walk])
        self.assertNotIn("as it was", written)
        self.assertEqual(page.printed_into(written, self.world, [walk]), written)
        with self.assertRaises(SystemExit):
            page.printed_into(text.replace("printed figures", "printed figure"), self.world, [walk])


if __name__ == "__main__":
    unittest.main()
