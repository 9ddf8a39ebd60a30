"""Reports of `check` and `bound` on worked examples: values, reasons, and how a report is printed and pickled."""

import pickle
import unittest
from decimal import Decimal
from fractions import Fraction

import yokecairn
from support import EXAMPLES, GALLERY, RECTANGLE

ZEROS = b"TYPE : POTENTIALS\nDIMENSION : 4\nNODE_POTENTIAL_SECTION\n1 0\n2 0\n3 0\n4 0\n"


class Tours(unittest.TestCase):
    def test_harbour(self):
        report = yokecairn.check(
            EXAMPLES / "harbour.tsp", EXAMPLES / "harbour.tour", potentials=EXAMPLES / "harbour.potentials"
        )
        self.assertTrue(report)
        self.assertEqual((report.type, report.nodes, report.length), ("TSP", 8, 226))
        self.assertEqual((report.bound, report.gap, report.optimal), (226, 0, True))
        self.assertEqual((report.reason, report.numbers, report.routes), (None, (), None))
        self.assertEqual(report.text, "type TSP\nnodes 8\nlength 226\nbound 226\noptimal\nyes\n")

    def test_orchard(self):
        files = [yokecairn.load(EXAMPLES / f"orchard.{it}") for it in ("tsp", "tour", "branches")]
        report = yokecairn.check(files[0], files[1], branches=files[2])
        self.assertEqual((report.yes, report.nodes, report.length, report.bound), (True, 80, 2461, 2461))
        self.assertTrue(report.optimal)

    def test_gallery(self):
        path = str(GALLERY / "uniform-300")
        self.assertTrue(yokecairn.check(path + ".tsp", path + ".tour", branches=path + ".branches").optimal)

    def test_solutions(self):
        """A solution is a path, bytes, a file that was read, or nodes."""
        path = EXAMPLES / "rectangle-1-2-3-4.tour"
        for tour in (path, str(path), path.read_bytes(), yokecairn.load(path), [1, 2, 3, 4], (1, 2, 3, 4)):
            self.assertEqual(yokecairn.check(RECTANGLE.encode(), tour).length, 14)
        self.assertEqual(yokecairn.check(RECTANGLE.encode(), [1, 3, 2, 4]).length, 18)
        self.assertEqual(yokecairn.check(RECTANGLE.encode(), []).reason, "TourCount")

    def test_a_gap(self):
        report = yokecairn.check(RECTANGLE.encode(), [1, 3, 2, 4], ZEROS)
        self.assertEqual((report.length, report.bound, report.gap, report.optimal), (18, 14, 4, False))
        self.assertTrue(report)

    def test_reasons(self):
        for tour, reason, numbers in (
            ([1, 2, 2, 3], "RepeatedNode", (3,)),
            ([1, 2, 3], "TourLength", ()),
            ([1, 2, 3, 5], "NodeOutOfRange", (4,)),
            ([[1, 2], [3, 4]], "TourCount", ()),
        ):
            report = yokecairn.check(RECTANGLE.encode(), tour)
            self.assertFalse(report)
            self.assertEqual((report.reason, report.numbers), (reason, numbers))
            self.assertEqual((report.length, report.bound, report.optimal), (None, None, False))
        report = yokecairn.check(
            EXAMPLES / "three-node.atsp", [1, 2, 3], b"TYPE : POTENTIALS\nDIMENSION : 3\n"
            b"ROW_POTENTIAL_SECTION\n1 2 2 2 3 3\nCOLUMN_POTENTIAL_SECTION\n1 0 2 0 3 0\n"
        )
        self.assertEqual((report.reason, report.numbers), ("DualInfeasible", (1, 2)))

    def test_what_is_not_judged(self):
        text = RECTANGLE.replace("EOF", "FOO : 1\nlength : 3\nBAR :\nEOF")
        report = yokecairn.check(text.encode(), [1, 2, 3, 4])
        self.assertEqual(report.not_judged, ("FOO", "length", "BAR"))
        self.assertEqual((report.length, report.yes), (14, True))

    def test_unusual_keywords(self):
        """Bytes that Python takes for line ends are kept in a keyword."""
        text = RECTANGLE.replace("EOF", "a\x1c\x85yes : 1\nEOF")
        report = yokecairn.check(text.encode("utf-8"), [1, 2, 2, 4])
        self.assertEqual(report.not_judged, ("a\x1c\x85yes",))
        self.assertEqual((report.yes, report.reason), (False, "RepeatedNode"))

    def test_routes(self):
        report = yokecairn.check(EXAMPLES / "dairy.vrp", [[5, 6, 4, 7], [2, 8, 3]])
        self.assertEqual((report.type, report.routes, report.length), ("CVRP", 2, 231))
        self.assertEqual((report.least, report.bound), (2, None))
        self.assertEqual(yokecairn.check(EXAMPLES / "dairy.vrp", [[5, 6, 4, 7], [2, 8]]).reason, "Unserved")

    def test_real_lengths(self):
        """A tour of 4 edges whose distances were multiplied by 1000 and rounded."""
        report = yokecairn.check(RECTANGLE.encode(), [1, 2, 3, 4], potentials=EXAMPLES / "rectangle-zero.potentials")
        self.assertEqual((report.length, report.bound), (14, 14))
        self.assertEqual(report.real_length(1000), (Decimal("0.012"), Decimal("0.016")))
        self.assertEqual(report.real_length(10, "up"), (Decimal("1.0"), Decimal("1.4")))
        self.assertEqual(report.real_bound(1000), Decimal("0.012"))
        least, most = report.real_length(7)  # 12/7 and 16/7, which have no last digit: the next outside
        least, most = Fraction(least), Fraction(most)
        self.assertTrue(7 * least < 12 < 7 * (least + Fraction("1e-28")) and 7 * (most - Fraction("1e-28")) < 16 < 7 * most)
        self.assertIsNone(yokecairn.check(RECTANGLE.encode(), [1, 2, 2, 4]).real_length(10))
        routes = yokecairn.check(EXAMPLES / "dairy.vrp", [[5, 6, 4, 7], [2, 8, 3]])
        self.assertEqual(routes.real_length(1), (231 - Decimal("4.5"), 231 + Decimal("4.5")))  # 7 customers, 2 routes
        for routes in (yokecairn.check(EXAMPLES / "dairy.vrp", [[5, 6, 4, 7], [2, 8, 3]], branches=EXAMPLES / "dairy.branches"),
                       yokecairn.bound(EXAMPLES / "dairy.vrp", branches=EXAMPLES / "dairy.branches")):
            self.assertEqual(routes.real_bound(1), 231 - 7)  # at most 7 routes, which have 14 edges
        for scale, wrong in ((0, ValueError), (1.5, TypeError), (True, TypeError)):
            with self.assertRaises(wrong):
                report.real_length(scale)
        with self.assertRaises(ValueError):
            report.real_length(10, "away")

    def test_reports_are_values(self):
        report = yokecairn.check(RECTANGLE.encode(), [1, 2, 3, 4], ZEROS)
        self.assertEqual(pickle.loads(pickle.dumps(report)), report)
        self.assertEqual(repr(report), "<Report yes: TSP nodes=4 length=14 bound=14 optimal>")
        bad = yokecairn.check(RECTANGLE.encode(), [1, 2, 2, 4])
        self.assertEqual(repr(bad), "<Report no RepeatedNode 3: TSP nodes=4>")

    def test_shown(self):
        wanted = "name rectangle\ntype TSP\nnodes 4\nweights EUC_2D\ncanonical 14\n"
        self.assertEqual(yokecairn.show(EXAMPLES / "rectangle.tsp"), wanted)


class Claims(unittest.TestCase):
    def test_length(self):
        self.assertTrue(yokecairn.check(RECTANGLE.encode(), [1, 2, 3, 4], length=14))
        report = yokecairn.check(RECTANGLE.encode(), [1, 2, 3, 4], length=13)
        self.assertEqual((report.yes, report.reason, report.numbers), (False, "LengthClaimed", (14,)))
        self.assertEqual(yokecairn.check(RECTANGLE.encode(), [1, 2, 3, 4], length=0).reason, "LengthClaimed")

    def test_strict(self):
        limited = RECTANGLE.replace("DIMENSION", "DISTANCE : 9\nDIMENSION", 1).encode()
        self.assertTrue(yokecairn.check(limited, [1, 2, 3, 4]))
        report = yokecairn.check(limited, [1, 2, 3, 4], length=14, strict=True, explain=True)
        self.assertEqual((report.yes, report.reason, report.numbers), (False, "NotJudged", ()))
        self.assertTrue(report.text.endswith("not judged DISTANCE\nno NotJudged DISTANCE\n"))
        self.assertIn("--strict", report.explanation)
        self.assertEqual(yokecairn.check(limited, [1, 2, 3, 4], length=13, strict=True).reason, "LengthClaimed")
        self.assertEqual(yokecairn.check(limited, [1, 2, 3, 3], strict=True).reason, "RepeatedNode")
        self.assertTrue(yokecairn.check(RECTANGLE.encode(), [1, 2, 3, 4], strict=True))

    def test_strict_fields(self):
        """A field that the instance doesn't use is a reason, where that is asked for; `compare` names the same one."""
        for field, more in (("CAPACITY", "CAPACITY : 9\n"), ("SCALE", "SCALE : 2\n"), ("DEPOT_SECTION", "DEPOT_SECTION\n1 -1\n")):
            unused = RECTANGLE.replace("NODE_COORD_SECTION", more + "NODE_COORD_SECTION").encode()
            report = yokecairn.check(unused, [1, 2, 3, 4], strict=True, explain=True)
            self.assertEqual((report.yes, report.reason, report.numbers), (False, yokecairn.Reason.NOT_USED, ()))
            self.assertTrue(report.text.endswith(f"nodes 4\nno NotUsed {field}\n"), report.text)
            self.assertIn("--strict", report.explanation)
            self.assertTrue(yokecairn.check(unused, [1, 2, 3, 4]))
            found = yokecairn.compare(unused, [[1, 2, 3, 4]], strict=True)
            self.assertEqual((found.basis.reason, found.basis.field, len(found)), ("NotUsed", field, 0))
            self.assertTrue(found.basis.text.endswith(f"no NotUsed {field}\n"))
            self.assertEqual(yokecairn.compare(unused, [[1, 2, 3, 4]]).basis.reason, None)

    def test_fields_in_use(self):
        """Fields that are used, and those that only draw an instance, are none."""
        for more in ("", "EDGE_WEIGHT_FORMAT : FUNCTION\n", "DISPLAY_DATA_TYPE : NO_DISPLAY\n", "FIXED_EDGES_SECTION\n1 2 -1\n"):
            used = RECTANGLE.replace("NODE_COORD_SECTION", more + "NODE_COORD_SECTION").encode()
            self.assertTrue(yokecairn.check(used, [1, 2, 3, 4], strict=True), more)
            self.assertEqual(yokecairn.compare(used, [[1, 2, 3, 4]], strict=True).basis.field, None, more)

    def test_strict_bounds(self):
        zeros = b"TYPE : POTENTIALS\nDIMENSION : 4\nNODE_POTENTIAL_SECTION\n1 0\n2 0\n3 0\n4 0\nEOF\n"
        limited = RECTANGLE.replace("DIMENSION", "DISTANCE : 9\nDIMENSION", 1).encode()
        self.assertTrue(yokecairn.bound(limited, zeros))
        report = yokecairn.bound(limited, zeros, strict=True, explain=True)
        self.assertEqual((report.yes, report.reason, report.bound), (False, "NotJudged", None))
        self.assertIn("--strict", report.explanation)
        self.assertTrue(yokecairn.bound(RECTANGLE.encode(), zeros, strict=True))

    def test_strict_comparisons(self):
        limited = RECTANGLE.replace("DIMENSION", "DISTANCE : 9\nDIMENSION", 1).encode()
        found = yokecairn.compare(limited, [[1, 2, 3, 4]], strict=True)
        self.assertEqual((found.basis.reason, found.status, len(found)), ("NotJudged", 1, 0))
        self.assertTrue(found.basis.text.endswith("not judged DISTANCE\nno NotJudged DISTANCE\n"))
        self.assertEqual(yokecairn.compare(limited, [[1, 2, 3, 4]]).status, 0)
        self.assertEqual(yokecairn.compare(RECTANGLE.encode(), [[1, 2, 3, 4]], strict=True).status, 0)

    def test_lengths_that_do_not_fit(self):
        for length in (2**63, -(2**63) - 1, 2**64 + 14):
            with self.assertRaises(ValueError):
                yokecairn.check(RECTANGLE.encode(), [1, 2, 3, 4], length=length)


class Bounds(unittest.TestCase):
    def test_bound(self):
        report = yokecairn.bound(RECTANGLE.encode(), ZEROS)
        self.assertEqual((report.yes, report.bound, report.length), (True, 14, None))
        self.assertEqual(report.text, "type TSP\nnodes 4\nbound 14\nyes\n")
        self.assertEqual(yokecairn.bound(RECTANGLE.encode(), branches=ZEROS).reason, "NotBranches")
        with self.assertRaises(yokecairn.EndFault) as caught:
            yokecairn.bound(RECTANGLE.encode(), b"")
        self.assertEqual(caught.exception.file, 2)

    def test_no_tour(self):
        """Two fixed arcs into one node, in a tree of one leaf."""
        instance = (
            "TYPE : ATSP\nDIMENSION : 3\nEDGE_WEIGHT_TYPE : EXPLICIT\nEDGE_WEIGHT_FORMAT : FULL_MATRIX\n"
            "EDGE_WEIGHT_SECTION\n0 1 2\n3 0 4\n5 6 0\nFIXED_EDGES_SECTION\n1 2\n3 2\n-1\nEOF\n"
        )
        tree = "TYPE : BRANCHES\nDIMENSION : 3\nBRANCH_SECTION\n0 -1\nEOF\n"
        report = yokecairn.bound(instance.encode(), branches=tree.encode())
        self.assertEqual((report.yes, report.bound, report.no_tour), (True, None, True))


if __name__ == "__main__":
    unittest.main()
