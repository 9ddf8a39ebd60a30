"""`Problem`: the fields of a file as values, and how it is rendered."""

import io
import pickle
import tempfile
import unittest
from decimal import Decimal
from pathlib import Path

import yokecairn
from support import EXAMPLES, GALLERY, RECTANGLE

EVERY_KEYWORD = (
    "NAME: all\nTYPE : CVRP\nCOMMENT : one\nCOMMENT : two\nFOO : 1\nBAR :\nDIMENSION : 3\nCAPACITY : 9\n"
    "SCALE : 2\nLOAD_UNIT : 4\nEDGE_WEIGHT_TYPE : EUC_2D\nNODE_COORD_TYPE : TWOD_COORDS\nDISPLAY_DATA_TYPE : TWOD_DISPLAY\n"
    "NODE_COORD_SECTION\n1 1.50e+01 -.5\n2 0.000000001 5.\n3 -1000000000 7\n"
    "DISPLAY_DATA_SECTION\n3 1 2\n2 3 4\n1 5 6\nDEMAND_SECTION\n1 0 2 4 3 5\nDEPOT_SECTION\n1 -1\n"
    "FIXED_EDGES_SECTION\n1 2 3 1 -1\nTOUR_SECTION\n1 2 -1 3\n"
)


class Fields(unittest.TestCase):
    def test_a_path_is_no_number(self):
        for path in (5, 3.5, None, b"x"):
            with self.assertRaisesRegex(TypeError, "a path is of type str or os.PathLike, and this is of type"):
                yokecairn.load(path)
        with self.assertRaises(TypeError):
            yokecairn.parse(RECTANGLE).save(1)

    def test_keywords(self):
        problem = yokecairn.parse(EVERY_KEYWORD)
        self.assertEqual(problem.name, "all")
        self.assertEqual(problem.type, "CVRP")
        self.assertEqual(problem.comment, "one\ntwo")
        self.assertEqual(problem.others, [("FOO", "1"), ("BAR", "")])
        numbers = (problem.dimension, problem.capacity, problem.scale, problem.load_unit)
        self.assertEqual(numbers, (3, 9, 2, 4))
        self.assertEqual(problem.edge_weight_type, "EUC_2D")
        self.assertIsNone(problem.edge_weight_format)
        self.assertEqual(problem.node_coord_type, "TWOD_COORDS")
        self.assertEqual(problem.display_data_type, "TWOD_DISPLAY")

    def test_sections(self):
        problem = yokecairn.parse(EVERY_KEYWORD)
        self.assertEqual(problem.display_data, {1: [5, 6], 2: [3, 4], 3: [1, 2]})
        self.assertEqual(problem.demands, {1: 0, 2: 4, 3: 5})
        self.assertEqual(problem.depots, [1])
        self.assertEqual(problem.fixed_edges, [(1, 2), (3, 1)])
        self.assertEqual(problem.tours, [[1, 2], [3]])
        self.assertEqual((problem.edge_weights, problem.node_potentials, problem.combs), ([], {}, []))

    def test_coordinates_are_exact(self):
        coords = yokecairn.parse(EVERY_KEYWORD).node_coords
        self.assertEqual(coords[1], [Decimal(15), Decimal("-0.5")])
        self.assertEqual(coords[2], [Decimal("0.000000001"), Decimal(5)])
        self.assertIsInstance(coords[3][0], Decimal)

    def test_coordinates_as_counts(self):
        counts = yokecairn.parse(EVERY_KEYWORD).counts()
        self.assertEqual(counts.shape, (3, 3))
        self.assertEqual(
            counts.tolist(),
            [[15 * 10**9, -5 * 10**8, 0], [1, 5 * 10**9, 0], [-(10**18), 7 * 10**9, 0]],
        )
        with self.assertRaises(KeyError):
            yokecairn.load(EXAMPLES / "star.tsp").counts()

    def test_coordinates_as_floats(self):
        problem = yokecairn.parse(EVERY_KEYWORD, floats=True)
        self.assertEqual(problem.node_coords[2], [1e-9, 5.0])
        self.assertIsInstance(problem.node_coords[1][0], float)
        self.assertIsInstance(problem.display_data[1][0], float)
        self.assertEqual(problem.replace(name="x").node_coords[1], [15.0, -0.5])

    def test_weights_are_listed_as_in_the_layout(self):
        self.assertEqual(yokecairn.load(EXAMPLES / "star.tsp").edge_weights, [[1, 2, 2], [1, 1], [2]])

    def test_certificates(self):
        prism = yokecairn.load(EXAMPLES / "prism.branches")
        self.assertEqual(prism.combs, [[[1, 2, 3], [1, 4], [2, 5], [3, 6]]])
        self.assertEqual(sum(isinstance(step, list) for step in prism.branches), 2)
        self.assertEqual(sum(isinstance(step, tuple) for step in prism.branches), 1)
        memory = yokecairn.parse(
            "TYPE : BRANCHES\nDIMENSION : 5\nMEMORY_SECTION\n2 3 -1 4 -1 -1\n"
            "SUBSET_ROW_SECTION\n2 3 4 -1 5 -1 3 4 -1 -1 -1\nBRANCH_SECTION\n0 10006 3 -1\n"
        )
        self.assertEqual(memory.memories, [[2, 3], [4]])
        self.assertEqual(memory.subset_rows, [([2, 3, 4], [5]), ([3, 4], [])])
        self.assertEqual(memory.branches, [[(10006, 3)]])
        self.assertEqual(memory.replace(name="x").subset_rows, memory.subset_rows)
        fixed = yokecairn.load(EXAMPLES / "rectangle-fixed.potentials")
        self.assertEqual(fixed.fixed_edge_potentials, [(1, 3, 2)])
        self.assertEqual(fixed.node_potentials, {1: 0, 2: 0, 3: 1, 4: 0})
        rows = yokecairn.load(EXAMPLES / "three-node-rows.potentials")
        self.assertEqual(rows.row_potentials, {1: 1, 2: 2, 3: 3})
        self.assertEqual(rows.column_potentials, {1: 0, 2: 0, 3: 0})

    def test_bytes_that_are_no_text(self):
        text = b"NAME : \xff\xe9\nTYPE : TOUR\nTOUR_SECTION\n1\n"
        problem = yokecairn.parse(text)
        self.assertEqual(problem.name.encode("utf-8", "surrogateescape"), b"\xff\xe9")
        self.assertEqual(yokecairn.parse(problem.render()), problem)

    def test_values_with_colons_and_unusual_line_ends(self):
        problem = yokecairn.parse("NAME : a : b\x0b\x85c\nX: :y\nTYPE : TOUR\nTOUR_SECTION\n")
        self.assertEqual(problem.name, "a : b\x0b\x85c")
        self.assertEqual(problem.others, [("X", ":y")])
        self.assertEqual(problem.tours, [])

    def test_dictionaries(self):
        problem = yokecairn.parse(RECTANGLE)
        points = {1: [0, 0], 2: [3, 0], 3: [3, 4], 4: [0, 4]}
        self.assertEqual(
            problem.as_dict(),
            {
                "name": "rectangle",
                "type": "TSP",
                "dimension": 4,
                "edge_weight_type": "EUC_2D",
                "node_coords": points,
            },
        )
        self.assertEqual(problem.as_name_dict(), problem.as_dict())
        keywords = {"NAME", "TYPE", "DIMENSION", "EDGE_WEIGHT_TYPE", "NODE_COORD_SECTION"}
        self.assertEqual(problem.as_keyword_dict().keys(), keywords)
        self.assertEqual(problem.as_dict(by_keyword=True)["NODE_COORD_SECTION"], points)
        self.assertEqual(yokecairn.parse(EVERY_KEYWORD).as_keyword_dict()["FOO"], "1")

    def test_an_empty_section_is_in_the_dictionary(self):
        fields = yokecairn.parse("TYPE : TOUR\nDIMENSION : 3\nFIXED_EDGES_SECTION\nTOUR_SECTION\n").as_dict()
        self.assertEqual((fields["fixed_edges"], fields["tours"]), ([], []))
        self.assertNotIn("depots", fields)


class Values(unittest.TestCase):
    def test_a_problem_does_not_change(self):
        problem = yokecairn.parse(RECTANGLE)
        with self.assertRaises(AttributeError):
            problem.name = "other"
        with self.assertRaises(AttributeError):
            problem.no_such_field

    def test_replace(self):
        problem = yokecairn.parse(EVERY_KEYWORD)
        other = problem.replace(name="other", comment=None, demands={1: 0, 2: 1, 3: 2}, others=[])
        self.assertEqual((other.name, other.comment, other.demands[3]), ("other", None, 2))
        self.assertEqual(other.others, [])
        self.assertEqual(other.node_coords, problem.node_coords)
        self.assertEqual(problem.name, "all")
        with self.assertRaises(yokecairn.EndFault):
            problem.replace(capacity=None)
        with self.assertRaises(TypeError):
            problem.replace(nodes=4)
        with self.assertRaises(ValueError):
            problem.replace(name="two\nlines")

    def test_equality_and_pickles(self):
        problem = yokecairn.parse(RECTANGLE)
        self.assertEqual(problem, yokecairn.parse(RECTANGLE.replace(" : ", ":")))
        self.assertNotEqual(problem, yokecairn.parse(RECTANGLE.replace("4 0 4", "4 0 5")))
        self.assertEqual(hash(problem), hash(yokecairn.parse(RECTANGLE)))
        self.assertEqual(pickle.loads(pickle.dumps(problem)), problem)
        self.assertEqual(repr(problem), "<Problem rectangle: TSP of 4 nodes>")

    def test_of_fields(self):
        made = yokecairn.Problem(
            name="rectangle",
            type="TSP",
            dimension=4,
            edge_weight_type="EUC_2D",
            node_coords={1: (0, 0), 2: [3.0, 0], 3: (Decimal("3.00"), 4), 4: (0, 4)},
        )
        self.assertEqual(made, yokecairn.parse(RECTANGLE))
        with self.assertRaises(yokecairn.LineFault):
            made.replace(node_coords={1: (0, 0), 2: (float("nan"), 0), 3: (3, 4), 4: (0, 4)})

    def test_kinds(self):
        rectangle = yokecairn.parse(RECTANGLE)
        star, three = yokecairn.load(EXAMPLES / "star.tsp"), yokecairn.load(EXAMPLES / "three-node.atsp")
        tour = yokecairn.load(EXAMPLES / "harbour.tour")
        self.assertEqual([it.is_explicit() for it in (rectangle, star, three, tour)], [False, True, True, False])
        self.assertEqual([it.is_full_matrix() for it in (rectangle, star, three)], [False, False, True])
        self.assertEqual([it.is_symmetric() for it in (rectangle, star, three)], [True, True, False])
        self.assertEqual([it.is_weighted() for it in (rectangle, star, tour)], [True, True, False])
        self.assertEqual([it.is_depictable() for it in (rectangle, star)], [True, False])
        self.assertTrue(rectangle.is_complete() and not rectangle.is_special())

    def test_a_full_matrix_may_be_symmetric(self):
        star = yokecairn.load(EXAMPLES / "star.tsp").relayout("FULL_MATRIX")
        self.assertTrue(star.is_full_matrix() and star.is_symmetric())

    def test_display(self):
        problem = yokecairn.parse(EVERY_KEYWORD)
        self.assertEqual(problem.get_display(3), [1, 2])
        rectangle = yokecairn.parse(RECTANGLE)
        self.assertEqual(rectangle.get_display(3), [3, 4])
        self.assertIsNone(rectangle.get_display(5))
        self.assertIsNone(rectangle.replace(display_data_type="NO_DISPLAY").get_display(3))


class RoundTrips(unittest.TestCase):
    """A file is the same after it was written, by each way."""

    def files(self):
        paths = [*EXAMPLES.iterdir(), *GALLERY.iterdir()]
        return [it for it in paths if it.suffix in (".tsp", ".atsp", ".vrp", ".tour", ".potentials", ".branches")]

    def test_render_and_parse(self):
        self.assertGreater(len(self.files()), 25)
        for path in self.files():
            with self.subTest(path.name):
                problem = yokecairn.load(path)
                self.assertEqual(yokecairn.parse(problem.render()), problem)
                self.assertEqual(yokecairn.parse(problem.to_bytes()).render(), problem.render())

    def test_fields_and_back(self):
        for path in self.files():
            with self.subTest(path.name):
                problem = yokecairn.load(path)
                self.assertEqual(yokecairn.Problem(**problem.as_dict(), others=problem.others), problem)
        every = yokecairn.parse(EVERY_KEYWORD)
        self.assertEqual(yokecairn.Problem(**every.as_dict(), others=every.others), every)

    def test_save_write_and_read(self):
        problem = yokecairn.parse(EVERY_KEYWORD)
        with tempfile.TemporaryDirectory() as folder:
            path = Path(folder, "all.vrp")
            problem.save(path)
            self.assertEqual(yokecairn.load(path), problem)
            self.assertEqual(yokecairn.load(str(path)), problem)
            for mode in ("", "b"):
                with open(path, "w" + mode) as file:
                    problem.write(file)
                with open(path, "r" + mode) as file:
                    self.assertEqual(yokecairn.read(file), problem)
            self.assertEqual(yokecairn.Problem.load(path), problem)
            with open(path) as file:
                self.assertEqual(yokecairn.Problem.read(file), problem)
            self.assertEqual(yokecairn.Problem.parse(EVERY_KEYWORD), problem)
        text, data = io.StringIO(), io.BytesIO()
        problem.write(text)
        problem.write(data)
        self.assertEqual(text.getvalue().encode(), data.getvalue())
        self.assertEqual(data.getvalue(), problem.to_bytes())

    def test_layouts_keep_each_cost(self):
        villages = yokecairn.load(EXAMPLES / "villages.tsp")
        nodes = list(villages.get_nodes())
        for layout in yokecairn.LAYOUTS:
            with self.subTest(layout):
                other = villages.relayout(layout)
                self.assertEqual(other.edge_weight_format, layout)
                self.assertEqual(other.matrix(), villages.matrix())
                self.assertEqual(other.trace_tours([nodes]), villages.trace_tours([nodes]))

    def test_layouts_that_are_refused(self):
        three = yokecairn.load(EXAMPLES / "three-node.atsp")
        with self.assertRaises(yokecairn.RelayoutFault) as caught:
            three.relayout("UPPER_ROW")
        self.assertEqual((caught.exception.name, caught.exception.details), ("NotSymmetric", (1, 2)))
        with self.assertRaises(yokecairn.RelayoutFault) as caught:
            yokecairn.parse(RECTANGLE).relayout("UPPER_ROW")
        self.assertEqual(caught.exception.name, "NotExplicit")
        with self.assertRaises(ValueError):
            three.relayout("FUNCTION")


if __name__ == "__main__":
    unittest.main()
