"""The command `python -m yokecairn`: verbs, options, streams, explanations and statuses."""

import os
import subprocess
import sys
import tempfile
import unittest
from pathlib import Path

from support import EXAMPLES, PACKAGE, RECTANGLE
from yokecairn.solution import length_of

try:
    import resource
except ImportError:
    resource = None


def run(*words, stdin=b"", **others):
    """The status of a run, and what it writes."""
    paths = [str(PACKAGE), os.environ.get("PYTHONPATH", "")]
    ran = subprocess.run(
        [sys.executable, "-m", "yokecairn", *map(str, words)],
        input=stdin,
        stdout=others.pop("stdout", subprocess.PIPE),
        stderr=subprocess.PIPE,
        env={**os.environ, "PYTHONPATH": os.pathsep.join(filter(None, paths))},
        **others,
    )
    return ran.returncode, ran.stdout, ran.stderr


class Command(unittest.TestCase):
    def test_verdicts(self):
        harbour = [EXAMPLES / f"harbour.{it}" for it in ("tsp", "tour", "potentials")]
        report = b"type TSP\nnodes 8\nlength 226\nbound 226\noptimal\nyes\n"
        self.assertEqual(run("check", *harbour[:2], "--potentials", harbour[2]), (0, report, b""))
        self.assertEqual(
            run("check", "--potentials", harbour[2], *harbour[:2]), (0, report, b"")
        )
        tour = b"TYPE : TOUR\nTOUR_SECTION\n1 2 2 3\n"
        status, out, err = run("check", EXAMPLES / "rectangle.tsp", "-", stdin=tour)
        self.assertEqual((status, out, err), (1, b"type TSP\nnodes 4\nno RepeatedNode 3\n", b""))

    def test_show_and_convert(self):
        shown = b"name rectangle\ntype TSP\nnodes 4\nweights EUC_2D\ncanonical 14\n"
        self.assertEqual(run(stdin=RECTANGLE.encode()), (0, shown, b""))
        self.assertEqual(run("--", stdin=RECTANGLE.encode()), (0, shown, b""))
        self.assertEqual(run("show", EXAMPLES / "rectangle.tsp"), (0, shown, b""))
        self.assertEqual(run("convert", "-", stdin=RECTANGLE.encode()), (0, RECTANGLE.encode(), b""))
        self.assertEqual(
            run("convert", EXAMPLES / "three-node.atsp", "--layout", "UPPER_ROW"),
            (1, b"", b"relayout: NotSymmetric 1 2\n"),
        )

    @unittest.skipUnless(resource, "the system limits no memory")
    def test_memory(self):
        def confine():
            resource.setrlimit(resource.RLIMIT_AS, (500_000_000, 500_000_000))

        shown = b"name rectangle\ntype TSP\nnodes 4\nweights EUC_2D\ncanonical 14\n"
        self.assertEqual(run("show", EXAMPLES / "rectangle.tsp", preexec_fn=confine), (0, shown, b""))
        long = RECTANGLE.replace("NODE_COORD_SECTION", "\n" * 3_000_000 + "NODE_COORD_SECTION").encode()
        self.assertEqual(run("show", "-", stdin=long, preexec_fn=confine), (0, shown, b""))

    def test_faults(self):
        with tempfile.TemporaryDirectory() as folder:
            bad, missing = Path(folder, "bad"), Path(folder, "missing")
            bad.write_text("TYPE : HCP\n")
            fault = (2, b"", f"file 1: line 1 word 0: Outside: {bad}: HCP\n".encode())
            gone = f"file 1: device: {missing}: No such file or directory\n".encode()
            self.assertEqual(run("show", bad), fault)
            self.assertEqual(run("check", bad, missing), fault)
            self.assertEqual(run("check", missing, bad), (5, b"", gone))
            rectangle = EXAMPLES / "rectangle.tsp"
            second = (2, b"", f"file 2: line 1 word 0: Outside: {bad}: HCP\n".encode())
            self.assertEqual(run("check", rectangle, bad), second)
            self.assertEqual(run("check", rectangle, bad, "--potentials", missing), second)
            self.assertEqual(run("bound", rectangle, "--branches", bad), second)
            self.assertEqual(run("show", folder), (5, b"", f"file 1: device: {folder}: Is a directory\n".encode()))
            standard = b"file 1: line 3 word 0: UnknownLine: standard input: x y\n"
            self.assertEqual(run("show", "-", stdin=b"\n\n x y\n"), (2, b"", standard))
            end = f"file 1: wrong kind: {EXAMPLES / 'harbour.tour'}\n".encode()
            self.assertEqual(run("check", EXAMPLES / "harbour.tour", rectangle), (2, b"", end))

    def test_a_full_device(self):
        if not os.path.exists("/dev/full"):
            self.skipTest("there is no /dev/full")
        with open("/dev/full", "wb") as full:
            status, _, err = run("show", EXAMPLES / "rectangle.tsp", stdout=full)
        self.assertEqual((status, err), (5, b"output: device\n"))

    def test_words_that_are_refused(self):
        for words, line in (
            (("convert", "missing", "--layout", "FUNCTION"), b"unknown layout\n"),
            (("check", "a", "b", "--potentials", "c", "--branches", "d"), b"both potentials and branches\n"),
            (("check", "a", "b", "--length", "12.5"), b"not a length\n"),
            (("compare", "a", "b", "c\nd"), b"line end in a path\n"),
        ):
            self.assertEqual(run(*words), (4, b"", line))
        for words in ((), ("-",), ("check", "a"), ("other", "a"), ("show", "--no", "a"), ("check", "-", "-")):
            status, out, err = run(*("show",) + words if not words else words)
            self.assertEqual((status, out), (4, b""), words)
            self.assertTrue(err.endswith(b"\n") and b"Traceback" not in err, words)
        for words in (("--help",), ("check", "--help"), ("--version",)):
            status, out, err = run(*words)
            self.assertEqual((status, err), (0, b""), words)
            self.assertTrue(out.startswith(b"yokecairn " if "--version" in words else b"usage: python3 -m yokecairn"), out)

    def test_a_best_known_length(self):
        words = ("compare", EXAMPLES / "harbour.tsp", EXAMPLES / "harbour.tour", "--tsv", "--best")
        row = run(*words, "200")[1].decode().splitlines()[1].split("\t")
        self.assertEqual(row[7:9], ["200", "13.0000"])
        with tempfile.TemporaryDirectory() as folder:
            Path(folder, "200").write_text("harbour8 226\n")
            self.assertEqual(run(*words, "200", cwd=folder)[1].decode().splitlines()[1].split("\t")[7:9], ["226", "0.0000"])

    def test_a_path_that_can_not_be_read_is_explained(self):
        status, out, err = run("show", "--explain", "no such file")
        self.assertEqual((status, out), (5, b""))
        self.assertEqual(err, b"file 1: device\nno such file: No such file or directory (os error 2)\n"
                         b"  The file can't be opened, or a read failed.\n")

    def test_explained(self):
        tour = b"TYPE : TOUR\nTOUR_SECTION\n1 2 2 3\n"
        status, out, err = run("check", "--explain", EXAMPLES / "rectangle.tsp", "-", stdin=tour)
        self.assertEqual((status, out), (1, b"type TSP\nnodes 4\nno RepeatedNode 3\n"))
        self.assertIn(b"  Place 3 has node 2", err)

    def test_solutions_of_other_programs(self):
        sol, dairy = EXAMPLES / "solvers/dairy.cvrplib.sol", EXAMPLES / "dairy.vrp"
        text = b"TYPE : TOUR\nCOMMENT : Cost 231\nCOMMENT : Customer k of CVRPLIB is node k + 1\nTOUR_SECTION\n5\n6\n4\n7\n-1\n2\n8\n3\n-1\nEOF\n"
        self.assertEqual(run("solution", sol), (0, text, b""))
        self.assertEqual(run("solution", "-", "--of", dairy, "--form", "cvrplib", "--depot", "1", stdin=sol.read_bytes()), (0, text, b""))
        self.assertEqual(run("solution", sol, "--form", "lists")[0], 4)
        report = b"type CVRP\nnodes 8\nroutes 2\nleast 2\nlength 231\nyes\n"
        self.assertEqual(run("check", "--foreign", dairy, sol), (0, report, b""))
        self.assertEqual(run("check", dairy, sol), (0, report, b""))
        self.assertEqual(run("check", "--no-foreign", dairy, sol)[0], 2)
        words = ("check", EXAMPLES / "harbour.tsp", "-")
        self.assertEqual(run(*words, stdin=b"1 2 3 4 8 5 6 7\n"), (0, b"type TSP\nnodes 8\nlength 226\nyes\n", b""))
        self.assertEqual(run(*words, stdin=b"1 x\n"), (2, b"", b"file 2: line 1 word 2: NotANode: standard input: x\n"))
        line = b"file 2: line 1 word 1: StrayNumber: standard input: 1\n"
        self.assertEqual(run(*words, "--no-foreign", stdin=b"1 2 3 4\n"), (2, b"", line))
        false = sol.read_bytes().replace(b"231", b"230")
        rejected = b"type CVRP\nnodes 8\nno LengthClaimed 231\n"
        self.assertEqual(run("check", EXAMPLES / "dairy.vrp", "-", stdin=false), (1, rejected, b""))
        self.assertEqual(run("check", "--no-claims", EXAMPLES / "dairy.vrp", "-", stdin=false), (0, report, b""))
        self.assertTrue(run("check", "--explain", EXAMPLES / "dairy.vrp", "-", stdin=false)[2].endswith(
            b"  The file itself claims 230. --no-claims leaves that.\n"))
        routes = b"[[4, 5, 3, 6], [1, 7, 2]]"
        self.assertEqual(run("check", "--first", "0", EXAMPLES / "dairy.vrp", "-", stdin=routes), (0, report, b""))
        self.assertEqual(run("check", "--first", "1", EXAMPLES / "dairy.vrp", "-", stdin=routes)[0], 1)
        copies = b"TYPE : TOUR\nTOUR_SECTION\n1 5 6 4 7 9 2 8 3 -1\nEOF\n"
        self.assertEqual(run("check", "--foreign", EXAMPLES / "dairy.vrp", "-", stdin=copies), (0, report, b""))
        # Without a depot there is no copy of it.
        tour = b"TYPE : TOUR\nTOUR_SECTION\n1 2 3 4 8 5 6 9 -1\nEOF\n"
        lines = b"type TSP\nnodes 8\nno NodeOutOfRange 8\n"
        self.assertEqual(run("check", "--foreign", EXAMPLES / "harbour.tsp", "-", stdin=tour), (1, lines, b""))
        self.assertEqual(run("solution", "-", stdin=b"1 x\n"), (2, b"", b"file 1: line 1 word 2: NotANode: standard input: x\n"))

    def test_lengths(self):
        for word, number in {"12": 12, "+3": 3, "-34": -34, "12.0": 12, "1.2e1": 12, "120e-1": 12, ".0": 0}.items():
            self.assertEqual(length_of(word), number)
        self.assertEqual(length_of("0e99999999999999999999"), 0)
        self.assertEqual(length_of(str(-(2**63))), -(2**63))
        for word in ("", "x", "1_0", "12.5", "1e", ".", "9" * 65, str(2**63), "1e999999999", "1e-5", "٣", "1 "):
            with self.assertRaises((ValueError, ArithmeticError), msg=word):
                length_of(word)


if __name__ == "__main__":
    unittest.main()
