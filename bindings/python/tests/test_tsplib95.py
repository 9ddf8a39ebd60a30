"""The same answers as the package tsplib95, where it is installed."""

import unittest

import yokecairn
from support import EXAMPLES, RECTANGLE, needs

FILES = ["rectangle.tsp", "star.tsp", "harbour.tsp", "villages.tsp", "three-node.atsp", "dairy.vrp"]


@needs("tsplib95", in_debian=False)
class SameAnswers(unittest.TestCase):
    def pairs(self):
        import tsplib95

        for name in FILES:
            with self.subTest(name):
                yield yokecairn.load(EXAMPLES / name, floats=True), tsplib95.load(str(EXAMPLES / name))

    def test_keywords(self):
        for mine, theirs in self.pairs():
            for name in ("type", "dimension", "edge_weight_type"):
                self.assertEqual(getattr(mine, name), getattr(theirs, name), name)
            for name in ("name", "comment", "capacity", "edge_weight_format"):
                self.assertEqual(getattr(mine, name) or None, getattr(theirs, name) or None, name)

    def test_sections(self):
        for mine, theirs in self.pairs():
            for name in ("node_coords", "display_data"):
                ours = {node: list(at) for node, at in getattr(theirs, name).items()}
                self.assertEqual(getattr(mine, name), ours, name)
            self.assertEqual(mine.demands, dict(theirs.demands or {}))
            self.assertEqual(mine.depots, list(theirs.depots or []))

    def test_weights(self):
        """tsplib95 counts the nodes of a matrix without places from 0."""
        for mine, theirs in self.pairs():
            shift = 1 - min(theirs.get_nodes())
            self.assertEqual(len(list(mine.get_nodes())), len(list(theirs.get_nodes())))
            for i, j in mine.get_edges():
                if i != j:
                    self.assertEqual(mine.get_weight(i, j), theirs.get_weight(i - shift, j - shift), (i, j))

    def test_tours(self):
        import tsplib95

        mine, theirs = yokecairn.parse(RECTANGLE), tsplib95.parse(RECTANGLE)
        tours = [[1, 2, 3, 4], [1, 3, 2, 4]]
        self.assertEqual(mine.trace_tours(tours), theirs.trace_tours(tours))
        self.assertEqual(mine.trace_canonical_tour(), theirs.trace_canonical_tour())
        harbour = str(EXAMPLES / "harbour.tour")
        self.assertEqual(yokecairn.load(harbour).tours, [list(it) for it in tsplib95.load(harbour).tours])

    def test_rendered(self):
        """Each reads what the other renders."""
        import tsplib95

        for mine, theirs in self.pairs():
            self.assertEqual(tsplib95.parse(mine.render()).dimension, mine.dimension)
            self.assertEqual(yokecairn.parse(theirs.render()).dimension, mine.dimension)


if __name__ == "__main__":
    unittest.main()
