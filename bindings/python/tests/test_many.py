"""The call `check_many`: many checks at once, over processes and threads."""

import threading
import unittest

import yokecairn
from support import EXAMPLES, RECTANGLE

HARBOUR = [str(EXAMPLES / f"harbour.{it}") for it in ("tsp", "tour", "potentials")]
JOBS = [
    tuple(HARBOUR),
    yokecairn.Job(RECTANGLE.encode(), [1, 2, 2, 4]),
    {"instance": RECTANGLE.encode(), "solution": [1, 2, 3, 4], "length": None},
    (RECTANGLE.encode(), b"TYPE : TOUR\n"),
    ("no such file", [1]),
    tuple(HARBOUR),
]


class Many(unittest.TestCase):
    def expect(self, outcomes):
        self.assertEqual(len(outcomes), 6)
        self.assertTrue(outcomes[0].optimal and outcomes[5].optimal)
        self.assertEqual(outcomes[1].reason, "RepeatedNode")
        self.assertEqual(outcomes[2].length, 14)
        self.assertIsInstance(outcomes[3], yokecairn.EndFault)
        self.assertEqual((outcomes[3].file, outcomes[3].details), (2, ("TOUR_SECTION",)))
        self.assertIsInstance(outcomes[4], FileNotFoundError)

    def test_threads(self):
        told = []
        outcomes = yokecairn.check_many(JOBS, 3, progress=lambda *words: told.append(words))
        self.expect(outcomes)
        self.assertEqual([(done, count) for done, count, _ in told], [(it, 6) for it in range(1, 7)])
        self.assertEqual({id(outcome) for *_, outcome in told}, {id(outcome) for outcome in outcomes})

    def test_one_worker_and_a_generator(self):
        self.expect(yokecairn.check_many((job for job in JOBS), 1))

    def test_processes(self):
        self.expect(yokecairn.check_many(JOBS, 2, processes=True))

    def test_no_jobs(self):
        self.assertEqual(yokecairn.check_many([]), [])

    def test_more_jobs_than_are_handed_out_at_once(self):
        jobs = [(RECTANGLE.encode(), [1, 2, 3, 4] if it % 3 else [1, 2, 2, 4]) for it in range(100)]
        outcomes = yokecairn.check_many(jobs, 2)
        self.assertEqual([outcome.yes for outcome in outcomes], [it % 3 != 0 for it in range(100)])

    def test_a_job_that_is_none(self):
        with self.assertRaises(TypeError):
            yokecairn.check_many([(1, 2, 3, 4, 5, 6)])
        for job in ("a.tsp", 5, ("a.tsp",), {"instance": "a.tsp"}, {"instance": "a", "tour": "b"}):
            with self.assertRaisesRegex(TypeError, "a job is a Job, a tuple of instance, solution, potentials, branches, length"):
                yokecairn.check_many([job])

    def test_calls_run_side_by_side(self):
        """Eight threads call the library on a file of their own."""
        texts = [RECTANGLE.replace("3 3 4", f"3 3 {4 + it}").encode() for it in range(8)]
        alone = [yokecairn.check(text, [1, 2, 3, 4]).length for text in texts]
        found = [[] for _ in texts]

        def work(number):
            for _ in range(200):
                found[number].append(yokecairn.check(texts[number], [1, 2, 3, 4]).length)

        threads = [threading.Thread(target=work, args=(it,)) for it in range(8)]
        for thread in threads:
            thread.start()
        for thread in threads:
            thread.join()
        self.assertEqual(found, [[length] * 200 for length in alone])


if __name__ == "__main__":
    unittest.main()
