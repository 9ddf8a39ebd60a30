"""Handles of the library, over which an instance is read once for many solutions: what they free, threads, and results in
numbers."""

import gc
import pickle
import re
import threading
import unittest
from array import array
from unittest import mock

import yokecairn
from support import EXAMPLES, RECTANGLE, report_in
from yokecairn import _library
from yokecairn.report import Report

TOUR = b"TYPE : TOUR\nTOUR_SECTION\n1 2 3 4 -1\nEOF\n"
TWICE = b"TYPE : TOUR\nTOUR_SECTION\n1 2 2 4 -1\nEOF\n"


def text_of(name):
    return (EXAMPLES / name).read_bytes()


class Handles(unittest.TestCase):
    def test_it_is_read_once(self):
        problem = yokecairn.load(EXAMPLES / "three-node.atsp")
        with mock.patch.object(_library, "_open", wraps=_library._open) as opened:
            for _ in range(3):
                self.assertEqual(problem.weights([(1, 2), (3, 1)]).tolist(), [1, 3])
                self.assertEqual(problem.trace_tours([[1, 2, 3]]), [6])
            self.assertEqual(problem.get_weight(2, 3), 2)
            self.assertEqual(problem.matrix()[0, 1], 1)
        self.assertEqual(opened.call_count, 1)

    def test_what_is_kept_is_freed_once(self):
        with mock.patch.object(_library, "_close", wraps=_library._close) as closed:
            problem = yokecairn.parse(RECTANGLE)
            self.assertEqual(problem.weights([(1, 3)]).tolist(), [5])
            closed.assert_not_called()
            del problem
            gc.collect()
        self.assertEqual(closed.call_count, 1)

    def test_a_copy_has_a_handle_of_its_own(self):
        problem = yokecairn.parse(RECTANGLE)
        self.assertEqual(problem.weights([(1, 3)]).tolist(), [5])
        copy = pickle.loads(pickle.dumps(problem))
        self.assertNotIn("_handle", copy.__dict__)
        self.assertEqual(copy.weights([(1, 3)]).tolist(), [5])

    def test_a_tour_has_no_weights(self):
        tour = yokecairn.parse(TOUR)
        for call in (lambda: tour.weights([(1, 2)]), lambda: tour.trace_tours([[1, 2]]), tour.matrix):
            self.assertRaises(yokecairn.WrongKind, call)
        self.assertEqual(_library.Handle(TOUR).status, _library.FAULT)

    def test_a_text_with_a_fault(self):
        handle = _library.Handle(b"TYPE : TSP\nDIMENSION : 4\n7\n")
        result = handle.result
        self.assertEqual((handle.status, result.file, result.line, result.word), (_library.FAULT, 1, 3, 1))
        status, numbers = handle.weights(array("I", [1, 2]))
        self.assertEqual((status, numbers.tolist()), (_library.REFUSED, [0]))
        self.assertEqual(handle.check(TOUR, None)[:2], (_library.REFUSED, b""))

    def test_threads_share_one(self):
        handle = _library.Handle(text_of("harbour.tsp"))
        handle.bind(text_of("harbour.potentials"), _library.POTENTIALS)
        tour, told = text_of("harbour.tour"), []

        def ask():
            for _ in range(50):
                status, _, result = handle.check(tour, None)
                told.append((status, result.length, result.bound))
                told.append(handle.weights(array("I", [1, 1]))[1][0])

        threads = [threading.Thread(target=ask) for _ in range(4)]
        for thread in threads:
            thread.start()
        for thread in threads:
            thread.join()
        self.assertEqual(set(told), {(_library.DONE, 226, 226), 0})
        self.assertEqual(len(told), 400)


class Results(unittest.TestCase):
    """A report made of numbers is the one that its text says."""

    def same(self, instance, solution, certificate=b"", by=_library.ALONE, claimed=None):
        status, told, result = _library.check_result(instance, solution, certificate, by, claimed)
        text = told.decode()
        self.assertIn(status, (_library.DONE, _library.NO), text)
        self.assertEqual(Report.of_result(result, text), report_in(text))
        handle = _library.Handle(instance)
        if by:
            handle.bind(certificate, by)
        again = handle.check(solution, claimed)
        self.assertEqual(again[:2], (status, told))
        self.assertEqual(bytes(again[2]), bytes(result))

    def test_checks(self):
        rectangle = RECTANGLE if isinstance(RECTANGLE, bytes) else RECTANGLE.encode()
        self.same(rectangle, TOUR)
        self.same(rectangle, TWICE)
        self.same(rectangle, TOUR, claimed=13)
        self.same(rectangle, b"TYPE : TOUR\nTOUR_SECTION\n1 2 -1\nEOF\n")
        self.same(rectangle, rectangle)
        self.same(b"NO_SUCH_KEYWORD : 1\n" + rectangle, TOUR)
        for by, name in ((_library.POTENTIALS, "harbour"), (_library.BRANCHES, "orchard")):
            word = "potentials" if by == _library.POTENTIALS else "branches"
            files = [text_of(f"{name}.{end}") for end in ("tsp", "tour", word)]
            self.same(*files, by)
            self.same(*files, by, 7)
            self.same(*files[:2])
            self.same(*files, 3 - by)

    def test_faults(self):
        """What is wrong with a number, and which field isn't whole, beside the line that says so."""
        points = "TYPE : TSP\nDIMENSION : 3\nEDGE_WEIGHT_TYPE : EUC_2D\nNODE_COORD_SECTION\n"
        for text, line, numbers in (
            (points + "1 0 " + 65 * "7", "line 5 word 3: Number LongWord", (10, 5, 3, 1, 0)),
            (points + "1 0 0x0", "line 5 word 3: Number BadNumber", (10, 5, 3, 2, 0)),
            (points + "1 0 0.0000000001", "line 5 word 3: Number TooFine", (10, 5, 3, 3, 0)),
            (points + "0 0 0", "line 5 word 1: Number OutOfRange", (10, 5, 1, 4, 0)),
            (points + "1.5 0 0", "line 5 word 1: Number NotWhole", (10, 5, 1, 5, 0)),
            (points + "1 0 0\n1 0 0", "line 6 word 1: RepeatedNode", (11, 6, 1, 0, 0)),
            (points + "1 0 0", "end: Incomplete NODE_COORD_SECTION", (17, 0, 0, 0, 12)),
            ("TYPE : TSP", "end: Missing DIMENSION", (16, 0, 0, 0, 5)),
            ("TYPE : TOUR", "end: Missing TOUR_SECTION", (16, 0, 0, 0, 18)),
        ):
            status, told, result = _library.check_result(text.encode(), TOUR, b"", _library.ALONE, None)
            self.assertEqual((status, told.decode()), (_library.FAULT, f"file 1: {line}\n"))
            found = (result.fault, result.line, result.word, result.number, result.field)
            self.assertEqual((result.file, *found), (1, *numbers), line)

    def test_the_version_is_that_of_the_project(self):
        cited = re.search(r"^version: (\S+)$", (EXAMPLES.parent / "CITATION.cff").read_text(), re.MULTILINE)
        self.assertEqual(yokecairn.__version__, cited[1])

    def test_large_bounds(self):
        """Bounds beyond 64 bits, of either sign."""
        result = _library.Result(has_bound=1, bound_high=-1, bound_low=2**64 - 5)
        self.assertEqual(result.bound, -5)
        self.assertEqual(_library.Result(has_bound=1, bound_high=3, bound_low=7).bound, 3 * 2**64 + 7)
        self.assertEqual(_library.Result(has_bound=1, bound_high=-4, bound_low=1).bound, 1 - 2**66)
        self.assertIsNone(_library.Result(bound_low=1).bound)

    def test_bounds(self):
        for by, name, word in (
            (_library.POTENTIALS, "harbour", "potentials"),
            (_library.BRANCHES, "orchard", "branches"),
            (_library.BRANCHES, "harbour", "potentials"),
        ):
            instance, certificate = text_of(f"{name}.tsp"), text_of(f"{name}.{word}")
            status, told, result = _library.bound_result(instance, certificate, by)
            self.assertEqual(Report.of_result(result, told.decode()), report_in(told.decode()))
            bound_status, bound = _library.Handle(instance).bind(certificate, by)
            self.assertEqual((bound_status, bytes(bound)), (status, bytes(result)))


if __name__ == "__main__":
    unittest.main()
