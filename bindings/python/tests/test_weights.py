"""Costs and lengths of `Problem`: worked examples, and random points beside the rules of docs/format.md."""

import random
import unittest
from array import array
from decimal import Decimal

import yokecairn
from support import EXAMPLES, RECTANGLE, distance, needs

KINDS = "EUC_2D CEIL_2D MAN_2D MAX_2D ATT EUC_3D MAN_3D MAX_3D".split()


def random_instance(kind, count, chance):
    """An instance with points of up to nine decimals."""
    axes = 3 if kind.endswith("3D") else 2
    span = chance.choice((10, 10**9, 10**12, 10**18))
    points = {
        node: [Decimal(chance.randint(-span, span)).scaleb(-9) for _ in range(axes)]
        for node in range(1, count + 1)
    }
    return yokecairn.Problem(type="TSP", dimension=count, edge_weight_type=kind, node_coords=points)


class Examples(unittest.TestCase):
    def test_rectangle(self):
        problem = yokecairn.parse(RECTANGLE)
        self.assertEqual([problem.get_weight(1, node) for node in (1, 2, 3, 4)], [0, 3, 5, 4])
        self.assertEqual(problem.trace_canonical_tour(), 14)
        self.assertEqual(problem.trace_tours([[1, 2, 3, 4], [1, 3, 2, 4], [1, 2], [2], []]), [14, 18, 6, 0, 0])
        self.assertEqual(problem.trace_tours([]), [])
        self.assertEqual(list(problem.get_nodes()), [1, 2, 3, 4])
        self.assertEqual(len(list(problem.get_edges())), 16)
        self.assertEqual(next(problem.get_edges()), (1, 1))

    def test_directions(self):
        problem = yokecairn.load(EXAMPLES / "three-node.atsp")
        self.assertEqual(problem.get_weight(1, 2), 1)
        self.assertEqual(problem.get_weight(2, 1), 10)
        self.assertEqual(problem.get_weight(2, 2), 9999)
        self.assertEqual(problem.trace_tours([[1, 2, 3], [1, 3, 2]]), [6, 30])
        self.assertEqual(problem.matrix().tolist(), [[9999, 1, 10], [10, 9999, 2], [3, 10, 9999]])
        self.assertEqual(problem.matrix()[0, 1], 1)
        self.assertEqual(problem.weights([(1, 2), (2, 1), (3, 2)]).tolist(), [1, 10, 10])

    def test_a_few_costs_need_no_matrix(self):
        problem = yokecairn.load(EXAMPLES / "three-node.atsp")
        for _ in range(3):
            self.assertEqual(problem.get_weight(2, 1), 10)
            self.assertNotIn("_matrix", vars(problem))
        self.assertEqual((problem.get_weight(1, 2), problem.get_weight(3, 2)), (1, 10))
        self.assertIn("_matrix", vars(problem))
        for wrong in ((0, 1), (1, 4)):
            with self.assertRaises(yokecairn.NodeError):
                yokecairn.load(EXAMPLES / "three-node.atsp").get_weight(*wrong)

    def test_layouts(self):
        costs = {"UPPER_ROW": 3, "LOWER_ROW": 4, "UPPER_COL": 4, "LOWER_COL": 3}
        for layout, cost in costs.items():
            problem = yokecairn.Problem(
                type="TSP",
                dimension=4,
                edge_weight_type="EXPLICIT",
                edge_weight_format=layout,
                edge_weights=[[1, 2, 3, 4, 5, 6]],
            )
            self.assertEqual((problem.get_weight(1, 4), problem.get_weight(4, 1)), (cost, cost))

    def test_roundings(self):
        for kind, x, y, wanted in (
            ("EUC_2D", "1.5", "0", 2),
            ("EUC_2D", "2.5", "0", 3),
            ("EUC_2D", "0.499999999", "0", 0),
            ("MAN_2D", "0.25", "0.25", 1),
            ("MAX_2D", "1.5", "0.4", 2),
            ("ATT", "2", "3", 2),
            ("ATT", "4", "5", 3),
            ("CEIL_2D", "1.000000001", "0", 2),
        ):
            problem = yokecairn.Problem(
                type="TSP",
                dimension=2,
                edge_weight_type=kind,
                node_coords={1: (0, 0), 2: (Decimal(x), Decimal(y))},
            )
            self.assertEqual(problem.get_weight(1, 2), wanted, (kind, x, y))
            a, b = (tuple(row) for row in problem.counts().tolist())
            self.assertEqual(distance(kind, a, b), wanted, (kind, x, y))

    def test_space(self):
        self.assertEqual(yokecairn.load(EXAMPLES / "in-space.tsp").get_weight(1, 2), 3)
        self.assertEqual(yokecairn.load(EXAMPLES / "in-space.tsp").node_coords[2], [1, 2, 2])

    def test_a_third_coordinate_that_no_distance_looks_at(self):
        text = (
            "TYPE : TSP\nDIMENSION : 2\nEDGE_WEIGHT_TYPE : EUC_2D\nNODE_COORD_TYPE : THREED_COORDS\n"
            "NODE_COORD_SECTION\n1 0 0 0\n2 3 4 99\n"
        )
        self.assertEqual(yokecairn.parse(text).get_weight(1, 2), 5)
        self.assertEqual(yokecairn.parse(text).node_coords[2], [3, 4, 99])

    def test_large_numbers(self):
        problem = yokecairn.parse(
            "TYPE : TSP\nDIMENSION : 2\nEDGE_WEIGHT_TYPE : EXPLICIT\nEDGE_WEIGHT_FORMAT : UPPER_ROW\n"
            "EDGE_WEIGHT_SECTION\n-1000000000000\n"
        )
        self.assertEqual(problem.get_weight(2, 1), -(10**12))
        self.assertEqual(problem.trace_canonical_tour(), -2 * 10**12)


class Random(unittest.TestCase):
    def test_points(self):
        chance = random.Random(55)
        for kind in KINDS * 3:
            problem = random_instance(kind, 9, chance)
            counts = [None, *problem.counts().tolist()]
            for i, j in problem.get_edges():
                wanted = distance(kind, counts[i], counts[j])
                self.assertEqual(problem.get_weight(i, j), wanted, (problem.render(), i, j))

    def test_all_calls_agree(self):
        chance = random.Random(7)
        costs = [[chance.randint(-999, 999) for _ in range(7)] for _ in range(7)]
        explicit = yokecairn.Problem(
            type="ATSP",
            dimension=7,
            edge_weight_type="EXPLICIT",
            edge_weight_format="FULL_MATRIX",
            edge_weights=costs,
        )
        self.assertEqual(explicit.matrix().tolist(), costs)
        for problem in (explicit, random_instance("EUC_2D", 7, chance)):
            edges = list(problem.get_edges())
            wanted = [problem.get_weight(i, j) for i, j in edges]
            self.assertEqual(problem.weights(edges).tolist(), wanted)
            self.assertEqual(problem.weights(array("I", [it for edge in edges for it in edge])).tolist(), wanted)
            self.assertEqual([cost for row in problem.matrix().tolist() for cost in row], wanted)
            tour = chance.sample(range(1, 8), 7)
            length = sum(problem.get_weight(i, j) for i, j in zip(tour, tour[1:] + tour[:1]))
            self.assertEqual(problem.trace_tours([tour, tuple(tour)]), [length, length])


class Many(unittest.TestCase):
    def test_more_nodes_than_one_call_takes(self):
        problem = yokecairn.parse(RECTANGLE)
        self.assertEqual(problem.trace_tours([[1, 2] * 250_000] * 3 + [[1, 3]]), [1_500_000] * 3 + [10])
        self.assertEqual(problem.trace_tours([[1] * 999_999]), [0])
        with self.assertRaises(ValueError):
            problem.trace_tours([[1] * 1_000_000])


class Refusals(unittest.TestCase):
    def test_nodes_that_are_not_there(self):
        for problem in (yokecairn.parse(RECTANGLE), yokecairn.load(EXAMPLES / "star.tsp")):
            for i, j in ((0, 1), (1, 5), (-1, 1), (2**32 + 1, 1)):
                with self.assertRaises(yokecairn.NodeError):
                    problem.get_weight(i, j)
                with self.assertRaises(yokecairn.NodeError):
                    problem.weights([(i, j)])
                with self.assertRaises(LookupError):
                    problem.trace_tours([[i, j]])
        with self.assertRaises(ValueError):
            yokecairn.parse(RECTANGLE).weights([(1, 2, 3)])

    def test_files_without_weights(self):
        tour = yokecairn.load(EXAMPLES / "harbour.tour")
        for call in (
            lambda: tour.get_weight(1, 2),
            lambda: tour.weights([(1, 2)]),
            lambda: tour.trace_tours([[1, 2]]),
            tour.matrix,
        ):
            with self.assertRaises((yokecairn.WrongKind, yokecairn.NodeError)):
                call()

    def test_results_can_not_be_written_to(self):
        with self.assertRaises(TypeError):
            yokecairn.parse(RECTANGLE).matrix()[0, 0] = 1


class Numpy(unittest.TestCase):
    @needs("numpy")
    def test_no_copy(self):
        import numpy

        problem = yokecairn.parse(RECTANGLE)
        view = problem.matrix()
        costs = numpy.asarray(view)
        self.assertEqual(costs.shape, (4, 4))
        self.assertEqual(costs.dtype, numpy.int64)
        self.assertTrue(numpy.shares_memory(costs, numpy.frombuffer(view, numpy.int64)))
        pairs = numpy.array([[1, 2], [1, 3]], numpy.uint32)
        weights = problem.weights(pairs)
        self.assertEqual(numpy.asarray(weights).tolist(), [3, 5])
        self.assertTrue(numpy.shares_memory(numpy.asarray(weights), numpy.asarray(weights)))
        self.assertEqual(problem.weights(pairs.astype(numpy.int64)).tolist(), [3, 5])
        self.assertEqual(numpy.asarray(problem.counts()).shape, (4, 3))
        self.assertEqual(problem.trace_tours([numpy.array([1, 2, 3, 4])]), [14])


if __name__ == "__main__":
    unittest.main()
