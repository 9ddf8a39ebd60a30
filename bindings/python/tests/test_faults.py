"""The exceptions of faulty files: their classes, places, names and texts."""

import pickle
import tempfile
import unittest
from pathlib import Path

import yokecairn
from support import EXAMPLES, RECTANGLE, fault_of

POINTS = "TYPE : TSP\nDIMENSION : 3\nEDGE_WEIGHT_TYPE : EUC_2D\nNODE_COORD_SECTION\n1 0 0\n2 3 x\n3 3 4\nEOF\n"
TOUR = "TYPE : TOUR\nTOUR_SECTION\n1 2 3 4 -1\n"


class Faults(unittest.TestCase):
    def test_a_word(self):
        fault = fault_of(POINTS)
        self.assertIsInstance(fault, yokecairn.LineFault)
        self.assertIsInstance(fault, ValueError)
        self.assertEqual((fault.file, fault.line, fault.word), (1, 6, 3))
        self.assertEqual((fault.name, fault.details), ("Number", ("BadNumber",)))
        self.assertEqual(fault.told, "file 1: line 6 word 3: Number BadNumber")
        self.assertIsNone(fault.path)

    def test_a_line(self):
        fault = fault_of("DIMENSION : 4\nTYPE : TSP\nDIMENSION : 4\n")
        self.assertEqual((fault.line, fault.word, fault.name, fault.details), (3, 0, "Repeated", ()))

    def test_what_is_found_there(self):
        self.assertEqual(fault_of(POINTS).found, "x")
        fault = fault_of("TYPE : TSP\nEDGE_WEIGHT_TYPE : GEO\n")
        self.assertEqual((fault.name, fault.found), ("Outside", "GEO"))
        self.assertTrue(str(fault).startswith("file 1: line 2 word 0: Outside: GEO"))
        self.assertEqual(pickle.loads(pickle.dumps(fault)).found, "GEO")
        self.assertIsNone(fault_of("").found)
        # of a line with an unknown keyword it is the line, which a colon doesn't cut
        self.assertEqual(fault_of("Route #1: 1 2\n").found, "Route #1: 1 2")
        with self.assertRaises(yokecairn.LineFault) as caught:
            yokecairn.check(RECTANGLE.encode(), b"TYPE : TOUR\nTOUR_SECTION\n1 zwei\n")
        self.assertEqual(caught.exception.found, "zwei")

    def test_an_end(self):
        fault = fault_of(POINTS.replace("2 3 x\n", ""))
        self.assertIsInstance(fault, yokecairn.EndFault)
        self.assertEqual((fault.name, fault.details), ("Incomplete", ("NODE_COORD_SECTION",)))
        self.assertEqual((fault.file, fault.line, fault.word), (1, None, None))
        self.assertEqual(fault_of("").details, ("TYPE",))

    def test_the_file_of_a_check(self):
        with self.assertRaises(yokecairn.LineFault) as caught:
            yokecairn.check(RECTANGLE.encode(), b"TYPE : TOUR\nTOUR_SECTION\n1 x\n")
        self.assertEqual((caught.exception.file, caught.exception.line, caught.exception.word), (2, 3, 2))
        with self.assertRaises(yokecairn.EndFault) as caught:
            yokecairn.check(RECTANGLE.encode(), TOUR.encode(), potentials=b"")
        self.assertEqual((caught.exception.file, caught.exception.name), (3, "Missing"))

    def test_wrong_kind(self):
        with self.assertRaises(yokecairn.WrongKind) as caught:
            yokecairn.check(TOUR.encode(), TOUR.encode())
        self.assertEqual((caught.exception.file, caught.exception.name), (1, "WrongKind"))

    def test_paths(self):
        with tempfile.TemporaryDirectory() as folder:
            path = Path(folder, "points.tsp")
            path.write_text(POINTS)
            with self.assertRaises(yokecairn.LineFault) as caught:
                yokecairn.load(path)
            self.assertEqual(caught.exception.path, str(path))
            self.assertTrue(str(caught.exception).startswith(f"{path}: file 1: line 6 word 3: Number"))
            with self.assertRaises(yokecairn.LineFault) as caught:
                yokecairn.check(EXAMPLES / "rectangle.tsp", path)
            self.assertEqual((caught.exception.file, caught.exception.path), (2, str(path)))
            with self.assertRaises(FileNotFoundError):
                yokecairn.load(Path(folder, "missing.tsp"))

    def test_pickles(self):
        fault = fault_of(POINTS)
        other = pickle.loads(pickle.dumps(fault))
        self.assertEqual((type(other), str(other)), (type(fault), str(fault)))
        self.assertEqual((other.line, other.details), (6, ("BadNumber",)))

    def test_both_certificates(self):
        with self.assertRaises(TypeError):
            yokecairn.check(RECTANGLE.encode(), TOUR.encode(), b"", b"")
        with self.assertRaises(TypeError):
            yokecairn.bound(RECTANGLE.encode())

    def test_texts_are_no_paths(self):
        with self.assertRaises(OSError):
            yokecairn.check("no such file", TOUR.encode())


class Explanations(unittest.TestCase):
    def test_a_fault(self):
        fault = fault_of(POINTS)
        self.assertIn("2 3 x", fault.explanation)
        self.assertIn("isn't a number", fault.explanation)
        self.assertTrue(str(fault).endswith(fault.explanation))

    def test_paths(self):
        with tempfile.TemporaryDirectory() as folder:
            path = Path(folder, "points.tsp")
            path.write_text(POINTS)
            with self.assertRaises(yokecairn.LineFault) as caught:
                yokecairn.check(EXAMPLES / "rectangle.tsp", path)
            first = caught.exception.explanation.split("\n")[0]
            self.assertTrue(first.startswith(f"{path}:6: word 3: Number"), first)
        with self.assertRaises(yokecairn.EndFault) as caught:
            yokecairn.bound(RECTANGLE.encode(), branches=b"")
        self.assertTrue(caught.exception.explanation.startswith("file 3: Missing TYPE"))

    def test_a_layout(self):
        with self.assertRaises(yokecairn.RelayoutFault) as caught:
            yokecairn.parse(RECTANGLE).relayout("FULL_MATRIX")
        self.assertIn("EXPLICIT", caught.exception.explanation)

    def test_a_claim_in_a_comment(self):
        tour = b"COMMENT : Length = 13\nTYPE : TOUR\nTOUR_SECTION\n1 2 3 4 -1\n"
        report = yokecairn.check(RECTANGLE.encode(), tour, explain=True)
        self.assertTrue(report)
        self.assertEqual(report.explanation, "file 2: a COMMENT claims the length 13, but the length is 14.")

    def test_a_no(self):
        tour = b"TYPE : TOUR\nTOUR_SECTION\n1 2 2 3 -1\n"
        report = yokecairn.check(RECTANGLE.encode(), tour, explain=True)
        self.assertEqual((report.reason, report.numbers), ("RepeatedNode", (3,)))
        self.assertIn("Place 3 has node 2", report.explanation)
        self.assertEqual(yokecairn.check(RECTANGLE.encode(), tour).explanation, "")


if __name__ == "__main__":
    unittest.main()
