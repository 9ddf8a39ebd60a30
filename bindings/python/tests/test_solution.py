"""The calls `read_solution` and `best_known`: the rows of tests/support/solutions.json, which the program reads too, the lengths
that solutions claim, and files of best-known lengths."""

import json
import pickle
import tempfile
import unittest
from pathlib import Path

import yokecairn
from support import EXAMPLES, RECTANGLE, ROOT
from yokecairn import SolutionError, best_known, check, read_solution
from yokecairn.solution import claim_of, shape_with

ROWS, CLAIMS = (json.loads((ROOT / f"tests/support/{name}.json").read_text()) for name in ("solutions", "claims"))
SOLVERS = EXAMPLES / "solvers"
HARBOUR = [1, 2, 3, 4, 8, 5, 6, 7]
COPIES = b"TYPE : TOUR\nTOUR_SECTION\n1 5 6 4 7 9 2 8 3 -1\nEOF\n"


def text_of(row):
    """The text that a row has to become."""
    if isinstance(row["wanted"], str):
        return row["wanted"].encode()
    said = [f"COMMENT : Cost {row['cost']}\n"] if "cost" in row else []
    said += [f"COMMENT : Customer k of {row['customers']} is node k + 1\n"] if "customers" in row else []
    tours = "".join(f"{node}\n" for tour in row["wanted"] for node in [*tour, -1])
    return f"TYPE : TOUR\n{''.join(said)}TOUR_SECTION\n{tours}EOF\n".encode()


def options_of(row):
    """The options of `read_solution` that a row asks for."""
    words = iter(row.get("words", []))
    options = {word[2:]: next(words) for word in words}
    options.update({name: int(options[name]) for name in ("first", "depot") if name in options})
    if "nodes" in row:
        options["of"] = shape_with(row["nodes"], row.get("depot")).instance
    return options


class Forms(unittest.TestCase):
    def test_rows(self):
        self.assertGreater(len(ROWS), 100)
        for row in ROWS:
            with self.subTest(row["name"]):
                if "fault" in row:
                    with self.assertRaises(yokecairn.Fault) as caught:
                        read_solution(row["text"].encode(), **options_of(row))
                    self.assertEqual(caught.exception.told, f"file 1: {row['fault']}")
                    is_tour = "TYPE : " in row["text"]
                    self.assertEqual(isinstance(caught.exception, SolutionError), not is_tour)
                else:
                    read = read_solution(row["text"].encode(), **options_of(row))
                    self.assertEqual(read.to_bytes(), text_of(row))
                    cost = float(row.get("cost", "0.5"))
                    self.assertEqual(read.claimed_length, claim_of(text_of(row)))
                    self.assertTrue("cost" not in row or read.claimed_length == (int(cost) if cost.is_integer() else None))

    def test_the_files_of_solvers(self):
        for name in ("harbour.concorde.sol", "harbour.concorde.edges", "harbour.lkh.tour"):
            tour = read_solution(SOLVERS / name)
            self.assertEqual(check(EXAMPLES / "harbour.tsp", tour).length, 226, name)
            self.assertEqual(check(EXAMPLES / "harbour.tsp", SOLVERS / name).length, 226, name)
        self.assertEqual(read_solution(SOLVERS / "harbour.concorde.sol").tours, [HARBOUR])
        routes = read_solution(SOLVERS / "dairy.cvrplib.sol", of=EXAMPLES / "dairy.vrp")
        self.assertEqual(routes.tours, [[5, 6, 4, 7], [2, 8, 3]])
        self.assertEqual(check(EXAMPLES / "dairy.vrp", routes).length, 231)

    def test_a_check_reads_every_form(self):
        rectangle = RECTANGLE.encode()
        for text in (b"1 2 3 4\n", b"0,1,2,3\n", b"[1, 2, 3, 4]", b"0 -> 1 -> 2 -> 3 -> 0\n", b"order,node\n1,1\n2,2\n3,3\n4,4\n"):
            self.assertEqual(check(rectangle, text).length, 14, text)
            with self.assertRaises(yokecairn.LineFault):
                check(rectangle, text, foreign=False)
        # LKH-3's copies of the depot are nodes of a tour as they are, unless every form is asked for
        self.assertEqual(check(EXAMPLES / "dairy.vrp", COPIES).reason, "DepotInRoute")
        self.assertEqual(check(EXAMPLES / "dairy.vrp", COPIES, foreign=True).length, 231)
        self.assertEqual([it.length for it in yokecairn.compare(EXAMPLES / "dairy.vrp", [COPIES], foreign=True)], [231])

    def test_faults(self):
        with self.assertRaises(SolutionError) as caught:
            check(RECTANGLE.encode(), b"1 2\n3,x,4\n")
        fault = caught.exception
        self.assertEqual((fault.told, fault.name, fault.found), ("file 2: line 2 word 2: NotANode", "NotANode", "x"))
        with self.assertRaises(SolutionError) as caught:
            check(RECTANGLE.encode(), b"Route #1: 1 3\n2 4\n")
        said = "the solution:2: word 1: UnknownLine\n  The line is no route. Besides routes, a file may have a cost, comments with #, and lines NAME: VALUE."
        self.assertEqual(str(caught.exception), f"file 2: line 2 word 1: UnknownLine: 2 4\n{said}")
        # a text without a form has the fault that it has as a file of TYPE TOUR
        with self.assertRaises(yokecairn.LineFault) as caught:
            check(RECTANGLE.encode(), b"<!DOCTYPE html>\n")
        self.assertEqual(caught.exception.told, "file 2: line 1 word 1: StrayNumber")
        with self.assertRaises(yokecairn.Fault) as caught:
            read_solution(b"1 2", of=b"TYPE : HCP\n")
        self.assertEqual(caught.exception.told, "file 2: line 1 word 0: Outside")
        for options in ({"form": "lists"}, {"first": 2}, {"depot": 0}):
            with self.assertRaises(ValueError):
                read_solution(b"1 2", **options)

    def test_a_path_is_named(self):
        with tempfile.TemporaryDirectory() as folder:
            path = Path(folder, "bad.sol")
            path.write_text("1\nx\n")
            for call in (read_solution, lambda it: check(RECTANGLE.encode(), it)):
                with self.assertRaises(SolutionError) as caught:
                    call(path)
                self.assertEqual((caught.exception.line, caught.exception.path), (2, str(path)))
                said = f"{path}:2: word 1: NotANode\n  The word isn't the number of a node or a customer."
                self.assertEqual(caught.exception.explanation, said)


class Claims(unittest.TestCase):
    def test_rows(self):
        for row in CLAIMS:
            self.assertEqual(claim_of(row["text"].encode()), row["claim"], row["name"])

    ROUTES = "Route #1: 4 5 3 6\nRoute #2: 1 7 2\nCost {}\n"

    def test_the_own_claim_of_a_file_is_its_length(self):
        dairy = EXAMPLES / "dairy.vrp"
        true, false = (self.ROUTES.format(cost).encode() for cost in (231, 230))
        self.assertTrue(check(dairy, true))
        report = check(dairy, false)
        self.assertEqual((report.yes, report.reason, report.numbers), (False, "LengthClaimed", (231,)))
        self.assertTrue(check(dairy, false, claims=False))
        self.assertTrue(check(dairy, false, length=231))
        with self.assertRaises(yokecairn.Fault):
            check(dairy, true, foreign=False)
        for read, yes in ((read_solution(false), False), (read_solution(false, claims=False), True)):
            self.assertEqual(check(dairy, read).yes, yes)
            self.assertEqual(check(dairy, pickle.loads(pickle.dumps(read))).yes, yes)
        found = yokecairn.compare(dairy, [true, false])
        self.assertEqual([report.reason for report in found], [None, "LengthClaimed"])
        self.assertTrue(all(yokecairn.compare(dairy, [true, false], claims=False)))

    def test_a_comment_of_a_tour_is_taken_on_request(self):
        tour = b"COMMENT : Length = 15\nTYPE : TOUR\nTOUR_SECTION\n1 2 3 4 -1\nEOF\n"
        self.assertTrue(check(RECTANGLE.encode(), tour))
        self.assertEqual(check(RECTANGLE.encode(), tour, foreign=True).reason, "LengthClaimed")
        self.assertTrue(check(RECTANGLE.encode(), tour, foreign=True, claims=False))

    def test_real_costs_are_not_compared(self):
        self.assertTrue(check(EXAMPLES / "dairy.vrp", self.ROUTES.format("231.5").encode()))


class Known(unittest.TestCase):
    def test_lengths(self):
        self.assertEqual(best_known(b"a280 : 2579\nali535: 202339 # km\n\nharbour 226\r\n"),
                         {"a280": 2579, "ali535": 202339, "harbour": 226})
        for text in (b"a280\n", b"a280 2579.5\n", b"a 1\na 2\n"):
            with self.assertRaisesRegex(ValueError, "line "):
                best_known(text)

    def test_percents(self):
        report = check(RECTANGLE.encode(), [1, 3, 2, 4], potentials=EXAMPLES / "rectangle-zero.potentials")
        self.assertEqual((report.length, report.bound, report.gap), (18, 14, 4))
        self.assertAlmostEqual(report.gap_percent, 400 / 14)
        self.assertAlmostEqual(report.percent_over(16), 12.5)
        self.assertIsNone(report.percent_over(0))
        self.assertIsNone(check(RECTANGLE.encode(), [1, 2, 3, 4]).gap_percent)


if __name__ == "__main__":
    unittest.main()
