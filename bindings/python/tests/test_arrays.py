"""Instances that are made of points and matrices by `Problem.from_points` and its like, graphs, dicts for JSON, and arguments
of wrong types."""

import json
import subprocess
import unittest
from decimal import Decimal

import yokecairn
from support import EXAMPLES, PACKAGE, RECTANGLE, needs_python_with, python_with
from yokecairn import Problem, check, load, parse

SQUARE = [[0, 0], [3, 0], [3, 4], [0, 4]]
SMALL = [[0.1, 0.1], [0.35, 0.1], [0.35, 0.35], [0.1, 0.35]]


class Points(unittest.TestCase):
    def test_lists(self):
        problem = Problem.from_points(SQUARE, name="rectangle")
        self.assertEqual(problem.render(), RECTANGLE)
        self.assertEqual(Problem.from_points(iter(map(tuple, SQUARE)), name="rectangle"), problem)
        space = Problem.from_points([[0, 0, 0], [1, 2, 2]], edge_weight_type="EUC_3D")
        self.assertEqual(space.get_weight(1, 2), 3)

    def test_scale_and_decimals(self):
        problem = Problem.from_points(SMALL, scale=1000, comment="mine")
        self.assertEqual(problem.node_coords[2], [Decimal(350), Decimal(100)])
        self.assertEqual(problem.comment, "mine\nCoordinates multiplied by 1000")
        with self.assertRaises(yokecairn.LineFault) as caught:
            Problem.from_points([[0, 0], [1 / 3, 0], [0, 1]])
        self.assertIn("TooFine", caught.exception.details)
        self.assertIn("decimals=9", caught.exception.explanation)
        rounded = Problem.from_points([[0, 0], [1 / 3, 0], [0, 1]], decimals=9)
        self.assertEqual(rounded.node_coords[2][0], Decimal("0.333333333"))
        self.assertEqual(rounded.comment, "Coordinates rounded to 9 decimals")
        # half to even
        self.assertEqual(Problem.from_points([[0.25, 0.75]], decimals=1).node_coords[1], [Decimal("0.2"), Decimal("0.8")])

    def test_distances_that_are_rounded_down(self):
        near = [[0, 0], [1, 1], [2, 0], [0.3, 0.3]]  # 1.41.., 2, and 0.42.. from the first
        problem = Problem.from_points(near, rounding="dimacs", name="near", comment="mine")
        self.assertEqual([problem.get_weight(1, node) for node in (2, 3, 4)], [14, 20, 4])
        self.assertEqual(problem.comment, "mine\nWeights are ten times the distances, rounded down")
        self.assertEqual(problem.get_display(4), [Decimal("0.3"), Decimal("0.3")])
        self.assertEqual([Problem.from_points(near, rounding="trunc").get_weight(1, node) for node in (2, 3, 4)], [1, 2, 0])
        # exactly on a tenth, where floats are below: 0.1 * 3 and 0.4 have the distance 0.5
        exact = Problem.from_points([[0, 0], [0.3, 0.4], [1, 1]], rounding="dimacs")
        self.assertEqual(exact.get_weight(1, 2), 5)
        routes = Problem.from_points(near, rounding="dimacs", type="CVRP", capacity=5, demands={1: 0, 2: 1, 3: 1, 4: 1}, depots=[1])
        report = check(routes, [[2, 3, 4]])
        self.assertEqual(report.length, 14 + 14 + 17 + 4)  # the third is 1.72..
        self.assertEqual(report.real_length(10, "down"), (Decimal("4.9"), Decimal("5.3")))
        for words, told in (({"rounding": "up"}, "a rounding is one of"), ({"rounding": "trunc", "edge_weight_type": "ATT"}, "only distances of EUC_2D")):
            with self.assertRaisesRegex(ValueError, told):
                Problem.from_points(near, **words)

    def test_wrong_points(self):
        for points, kind, words in (
            ([[0, "1"]], TypeError, "coordinate of point 1 is no number, but of type str: '1'"),
            ([[0, 1], [2]], ValueError, "point 2 has 1 coordinates, and 2 are wanted"),
            ([[0, 1, 2]], ValueError, 'and 2 are wanted; edge_weight_type="EUC_3D" takes three'),
            ([[0, float("nan")]], ValueError, "point 1 isn't finite"),
            ({1: [0, 1]}, TypeError, "field node_coords"),
            (5, TypeError, "points are rows of numbers, and this is of type int"),
            ([1, 2], TypeError, "points are rows"),
            ([], ValueError, "at least one row"),
        ):
            with self.assertRaisesRegex(kind, words):
                Problem.from_points(points)
        with self.assertRaisesRegex(TypeError, "a scale is a whole number"):
            Problem.from_points(SQUARE, scale=0.5)

    def test_unit_square(self):
        small, scaled = Problem.from_points(SMALL), Problem.from_points(SMALL, scale=100)
        report = check(small, [1, 2, 3, 4])
        self.assertEqual((report.length, report.rounded), (0, True))
        self.assertEqual(report.explanation, "")
        self.assertIn("multiply the coordinates", check(small, [1, 2, 3, 4], explain=True).explanation)
        self.assertEqual((check(scaled, [1, 2, 3, 4]).length, check(scaled, [1, 2, 3, 4]).rounded), (100, False))
        ones = Problem.from_matrix([[0, 1, 1], [1, 0, 1], [1, 1, 0]])
        self.assertFalse(check(ones, [1, 2, 3]).rounded)


class Matrices(unittest.TestCase):
    def test_lists(self):
        problem = Problem.from_matrix([[9, 1, 2], [1, 9, 3], [2, 3, 9]], name="three")
        self.assertEqual((problem.type, problem.name, problem.get_weight(2, 3), problem.get_weight(1, 1)), ("TSP", "three", 3, 0))
        self.assertEqual(Problem.from_matrix([[0, 1], [2, 0]]).type, "ATSP")
        scaled = Problem.from_matrix([[0, 0.25], [0.25, 0]], scale=4)
        self.assertEqual((scaled.get_weight(1, 2), scaled.comment), (1, "Weights multiplied by 4"))
        self.assertEqual(Problem.from_matrix([[0, 2.5], [2.5, 0]], rounded=True).get_weight(1, 2), 2)
        self.assertEqual(Problem.from_matrix([[float("inf"), 2.0], [2.0, float("nan")]]).get_weight(1, 2), 2)

    def test_wrong_weights(self):
        with self.assertRaisesRegex(ValueError, "weight from 1 to 2 isn't whole: 2.5"):
            Problem.from_matrix([[0, 2.5], [2.5, 0]])
        with self.assertRaisesRegex(ValueError, "row 1 has 3 weights, and there are 2 rows"):
            Problem.from_matrix([[0, 1, 2], [1, 0, 2]])
        with self.assertRaisesRegex(TypeError, "weight from 1 to 2 is no number"):
            Problem.from_matrix([[0, "1"], [1, 0]])

    @needs_python_with("numpy", "networkx")
    def test_numpy_and_networkx(self):
        words = """
import networkx, numpy, yokecairn
points = numpy.array([[0.1, 0.2], [0.3, 0.4], [0.5, 0.9]])
exact = yokecairn.Problem.from_points(points.tolist(), scale=10)
assert yokecairn.Problem.from_points(points, scale=10) == exact
assert yokecairn.Problem.from_points(points.astype(numpy.float32), scale=10) == exact
rows = numpy.array([[0, 5, 6], [5, 0, 7], [6, 7, 0]])
assert yokecairn.Problem.from_matrix(rows) == yokecairn.Problem.from_matrix(rows.tolist())
problem = yokecairn.Problem.from_matrix(rows, fixed_edges=[(1, 3)])
assert yokecairn.check(problem, numpy.array([1, 2, 3]), length=numpy.int64(18)).yes
assert problem.get_weight(numpy.int64(1), numpy.uint8(3)) == 6
graph = problem.get_graph()
assert type(graph) is networkx.Graph and sorted(graph.edges(data="weight")) == [(1, 2, 5), (1, 3, 6), (2, 3, 7)]
assert graph.edges[1, 3]["is_fixed"] and not graph.edges[1, 2]["is_fixed"]
directed = yokecairn.Problem.from_matrix([[0, 1], [2, 0]]).get_graph(normalize=True)
assert type(directed) is networkx.DiGraph and directed.edges[1, 0]["weight"] == 2
try:
    yokecairn.Problem(type="TSP", node_coords=points)
except TypeError as fault:
    assert "from_points" in str(fault), fault
else:
    raise AssertionError("an array is taken as coordinates")
"""
        ran = subprocess.run([python_with("numpy", "networkx"), "-c", words], cwd=PACKAGE, capture_output=True, text=True)
        self.assertEqual((ran.returncode, ran.stderr), (0, ""))


class Dicts(unittest.TestCase):
    def test_json(self):
        for name in ("harbour.tsp", "dairy.vrp", "prism.branches", "harbour.tour", "harbour.potentials"):
            found = load(EXAMPLES / name).as_dict(json=True)
            self.assertEqual(json.loads(json.dumps(found)), found, name)
        found = parse(RECTANGLE.replace("3 0\n", "3.5 0\n", 1)).as_dict(by_keyword=True, json=True)
        self.assertEqual(found["NODE_COORD_SECTION"]["2"], [3.5, 0])
        report = check(EXAMPLES / "harbour.tsp", EXAMPLES / "harbour.tour", EXAMPLES / "harbour.potentials").as_dict()
        self.assertEqual(json.loads(json.dumps(report)), report)
        self.assertEqual((report["length"], report["optimal"], report["not_judged"]), (226, True, []))


class Types(unittest.TestCase):
    def test_wrong_types(self):
        rectangle = parse(RECTANGLE)
        for call, words in (
            (lambda: check(rectangle, [1, 2, 3, 4], length=14.0), "a length is a whole number.*float: 14.0"),
            (lambda: check(rectangle, [1, 2, 3, "4"]), "a tour is a list of nodes"),
            (lambda: check(rectangle, [1, 2, 3, 4.0]), "a tour is a list of nodes"),
            (lambda: check(rectangle, 5), "a solution is a path.*type int"),
            (lambda: check(5, [1, 2]), "a file is a path.*type int"),
            (lambda: check(rectangle, [1, 2, 3, 4], potentials=[1]), "a file is a path.*type list"),
            (lambda: rectangle.get_weight("1", 2), "nodes are whole numbers, and the pair is '1', 2"),
            (lambda: rectangle.get_weight(1.0, 2), "nodes are whole numbers"),
            (lambda: rectangle.weights([(1, "2")]), "pairs are pairs of nodes"),
            (lambda: rectangle.weights(5), "pairs are pairs of nodes"),
            (lambda: rectangle.trace_tours([1, 2, 3, 4]), r"this is one tour: write \[tour\]"),
            (lambda: rectangle.trace_tours(5), "tours are lists of nodes"),
            (lambda: rectangle.trace_tours([["1", 2]]), "a tour is a list of nodes"),
            (lambda: Problem(type="TSP", dimension=1, node_coords=[[0, 0]]), "node_coords has a value by node.*from_points"),
            (lambda: Problem(type="TOUR", tours=[1, 2, 3]), "tours has another form"),
            (lambda: Problem(type="TSP", edge_weights=[1, 2, 3]), "edge_weights has another form"),
            (lambda: parse(5), "a text is of type str or bytes"),
        ):
            with self.assertRaisesRegex(TypeError, words):
                call()


if __name__ == "__main__":
    unittest.main()
