"""The call `compare` and the verb `compare`: many solutions of one instance beside each other."""

import csv
import io
import json
import os
import pickle
import tempfile
import unittest
from pathlib import Path

import yokecairn
from support import EXAMPLES, RECTANGLE, needs
from test_command import run

RECT = EXAMPLES / "rectangle.tsp"
AROUND, ACROSS = EXAMPLES / "rectangle-1-2-3-4.tour", EXAMPLES / "rectangle-1-3-4-2.tour"
ZERO = EXAMPLES / "rectangle-zero.potentials"
TWICE = b"TYPE : TOUR\nTOUR_SECTION\n1 2 2 3\n-1\nEOF\n"


class Calls(unittest.TestCase):
    def test_every_kind_of_solution(self):
        solutions = [str(AROUND), ACROSS, [1, 3, 4, 2], ACROSS.read_bytes(), yokecairn.load(AROUND), TWICE]
        found = yokecairn.compare(RECT, solutions, potentials=ZERO)
        self.assertEqual([report.length for report in found[:5]], [14, 16, 16, 16, 14])
        self.assertEqual([bool(report) for report in found], [True] * 5 + [False])
        self.assertEqual((found[5].reason, found[5].numbers), ("RepeatedNode", (3,)))
        self.assertEqual(found.names, [str(AROUND), str(ACROSS), "#3", "#4", "#5", "#6"])
        self.assertEqual((found.basis.bound, found.basis.nodes, found.status), (14, 4, 1))
        self.assertEqual([name for name, _ in found.accepted()], found.names[:5])
        self.assertEqual(found.shortest()[0], str(AROUND))

    def test_by_name(self):
        found = yokecairn.compare(RECT, {"around": AROUND, "twice": TWICE})
        self.assertEqual((found["around"].length, found["twice"].reason), (14, "RepeatedNode"))
        self.assertEqual(yokecairn.compare(RECT, [AROUND])[str(AROUND)].length, 14)
        with self.assertRaises(KeyError):
            found["other"]

    def test_reports_are_those_of_check(self):
        solutions = [AROUND, ACROSS, TWICE, [1, 2]]
        for words in ({}, {"potentials": ZERO}):
            found = yokecairn.compare(RECT, solutions, **words)
            self.assertEqual(list(found), [yokecairn.check(RECT, it, **words) for it in solutions])

    def test_faults_stay_in_their_place(self):
        found = yokecairn.compare(RECT, {"bad": b"TYPE : TOUR\nx\n", "gone": "no such file", "good": [1, 2, 3, 4]})
        self.assertIsInstance(found[0], yokecairn.LineFault)
        self.assertIsInstance(found[1], FileNotFoundError)
        self.assertEqual((found[2].length, found.names, found.status), (14, ["bad", "gone", "good"], 5))
        self.assertEqual([row["verdict"] for row in found.as_rows()], ["fault", "unread", "yes"])
        self.assertEqual(found.as_rows()[0]["detail"], "line 2 word 0: UnknownLine: x")

    def test_gaps_and_best_known_lengths(self):
        found = yokecairn.compare(RECT, [AROUND, ACROSS], potentials=ZERO, best={"rectangle": 10})
        rows = found.as_rows()
        self.assertEqual([row["gap"] for row in rows], [0, 2])
        self.assertEqual([row["gap_percent"] for row in rows], [0, 100 * 2 / 14])
        self.assertEqual([row["best_percent"] for row in rows], [40, 60])
        summary = (
            f"2 of 2 accepted, 1 optimal; shortest 14 ({AROUND}); +0.0000 % from the bound 14;"
            " +40.0000 % from the best known 10; no tour has the best known length 10: the bound is above it"
        )
        self.assertEqual(found.summary(), summary)
        self.assertEqual(yokecairn.compare(RECT, [ACROSS], best=b"# lengths\nrectangle : 14\n").best, 14)
        self.assertEqual(yokecairn.compare(RECT, [ACROSS], best=15).as_rows()[0]["best_percent"], 100 / 15)
        with self.assertRaisesRegex(yokecairn.BestUnknown, "no best-known length of rectangle"):
            yokecairn.compare(RECT, [AROUND], best={"other": 3})
        with self.assertRaisesRegex(yokecairn.BestUnknown, "the instance has no NAME"):
            yokecairn.compare(RECTANGLE.replace("NAME : rectangle\n", "").encode(), [[1, 2, 3, 4]], best={"": 3})

    def test_routes(self):
        sol = EXAMPLES / "solvers/dairy.cvrplib.sol"
        found = yokecairn.compare(EXAMPLES / "dairy.vrp", [sol, [[5, 6, 4, 7], [2, 8, 3]], [[2, 3]]], foreign=True)
        self.assertEqual((found[0].length, found[0].routes, found.basis.least), (231, 2, 2))
        self.assertEqual([report.reason for report in found], [None, None, "Unserved"])

    def test_no_solution_is_accepted(self):
        two = b"TYPE : TSP\nDIMENSION : 2\nEDGE_WEIGHT_TYPE : EUC_2D\nNODE_COORD_SECTION\n1 0 0\n2 0 1\n"
        wrong = EXAMPLES / "harbour.potentials"
        for words, reason in (((two,), "TooFewNodes"), ((RECT, wrong), "PotentialsDimension")):
            found = yokecairn.compare(words[0], ["no such file"], *words[1:])
            self.assertEqual((len(found), found.basis.reason, found.status), (0, reason, 1))
            self.assertEqual(str(found), f"no solution is accepted: {reason}")

    def test_an_instance_without_a_tour(self):
        pairs = "FIXED_EDGES_SECTION\n1 2\n1 3\n1 4\n-1\n"
        instance = RECTANGLE.replace("NODE_COORD_SECTION", f"{pairs}NODE_COORD_SECTION").encode()
        found = yokecairn.compare(instance, [[1, 2, 3, 4]])
        self.assertEqual(found[0].reason, "FixedEdgeUnused")

    def test_faults_of_the_first_files(self):
        with self.assertRaises(yokecairn.Fault) as caught:
            yokecairn.compare(b"TYPE : HCP\n", [[1]])
        self.assertEqual((caught.exception.file, caught.exception.line), (1, 1))
        with self.assertRaises(yokecairn.Fault) as caught:
            yokecairn.compare(RECT, [[1]], potentials=b"TYPE : POTENTIALS\n")
        self.assertEqual(caught.exception.file, 2)
        with self.assertRaises(yokecairn.WrongKind):
            yokecairn.compare(AROUND, [[1]])
        with self.assertRaises(FileNotFoundError):
            yokecairn.compare("no such file", [[1]])
        with self.assertRaisesRegex(TypeError, "both potentials and branches"):
            yokecairn.compare(RECT, [[1]], ZERO, ZERO)

    def test_wrong_arguments(self):
        for solutions in (str(AROUND), AROUND, AROUND.read_bytes(), yokecairn.load(AROUND)):
            with self.assertRaisesRegex(TypeError, "one solution is a list of one"):
                yokecairn.compare(RECT, solutions)
        with self.assertRaisesRegex(TypeError, "its part 1 is a number"):
            yokecairn.compare(RECT, [1, 2, 3, 4])
        with self.assertRaisesRegex(TypeError, "of type int"):
            yokecairn.compare(RECT, 7)

    def test_one_at_a_time(self):
        held, told = [], []

        def tours():
            for _ in range(3):
                held.append(1)
                yield [1, 2, 3, 4]

        progress = lambda done, name, report: told.append((done, name, report.length, len(held)))  # noqa: E731
        yokecairn.compare(RECT, tours(), progress=progress)
        self.assertEqual(told, [(1, "#1", 14, 1), (2, "#2", 14, 2), (3, "#3", 14, 3)])

    def test_explained(self):
        found = yokecairn.compare(RECT, [TWICE], explain=True)
        self.assertIn("Place 3 has node 2", found[0].explanation)


class Tables(unittest.TestCase):
    def setUp(self):
        words = {"around": AROUND, "<b>": ACROSS, "twice": TWICE}
        self.found = yokecairn.compare(RECTANGLE.encode(), words, potentials=ZERO, best=14)

    def test_text(self):
        text = (
            "solution  verdict  length  gap  gap_percent  best_percent  detail\n"
            "around    optimal      14    0       0.0000        0.0000\n"
            "<b>       yes          16    2      14.2857       14.2857\n"
            "twice     no                                               RepeatedNode 3\n"
            "2 of 3 accepted, 1 optimal; shortest 14 (around); +0.0000 % from the bound 14;"
            " +0.0000 % from the best known 14"
        )
        self.assertEqual(str(self.found), text)

    def test_html(self):
        text = self.found._repr_html_()
        self.assertIn('<th style="text-align: left">solution</th><th style="text-align: left">verdict</th>', text)
        self.assertIn('&lt;b&gt;</td><td style="text-align: left">yes</td><td style="text-align: right">16</td>', text)
        many = yokecairn.compare(RECT, [[1, 2, 3, 4]] * 33)._repr_html_()
        self.assertEqual((many.count("<tr>"), many.count("<p>and 13 more</p>"), many.count("33 of 33 accepted")), (21, 1, 1))
        self.assertEqual(yokecairn.compare(RECT, [])._repr_html_(), "<p>0 of 0 accepted</p>")
        # those that aren't accepted are all named, above the table, which has the shortest first
        many = yokecairn.compare(RECT, [TWICE, [1, 3, 2, 4]] * 30 + [[1, 2, 3, 4]])._repr_html_()
        self.assertEqual((many.count("<li>"), many.count("<tr>"), many.count("<p>and 11 more</p>")), (30, 21, 1))
        self.assertLess(many.index("#1: RepeatedNode 3"), many.index("<table>"))
        self.assertLess(many.index(">#61<"), many.index(">#2<"))

    def test_by_length(self):
        found = yokecairn.compare(RECT, {"c": TWICE, "b": [1, 3, 2, 4], "a": [1, 2, 3, 4], "d": b"x"})
        self.assertEqual(found.by_length().names, ["a", "b", "c", "d"])
        self.assertEqual(found.rejected(), [("c", "RepeatedNode 3"), ("d", "line 1 word 0: UnknownLine: x")])
        self.assertEqual(str(found.by_length()).splitlines()[1].split()[:3], ["a", "yes", "14"])
        self.assertEqual(found.names, ["c", "b", "a", "d"])

    def test_csv(self):
        text = (
            "instance,solution,verdict,length,bound,gap,gap_percent,best,best_percent,routes,detail\n"
            "rectangle,around,optimal,14,14,0,0.0000,14,0.0000,,\n"
            "rectangle,<b>,yes,16,14,2,14.2857,14,14.2857,,\n"
            "rectangle,twice,no,,14,,,14,,,RepeatedNode 3\n"
        )
        self.assertEqual(self.found.to_csv(), text)
        with tempfile.TemporaryDirectory() as folder:
            path = Path(folder, "table.tsv")
            self.assertIsNone(self.found.to_csv(path, separator="\t"))
            self.assertEqual(path.read_text(), text.replace(",", "\t"))
        odd = yokecairn.compare(RECT, {'a,"b"\n': [1, 2, 3, 4]}).to_csv()
        self.assertEqual(list(csv.reader(io.StringIO(odd)))[1][1], 'a,"b"\n')

    def test_json(self):
        again = json.loads(json.dumps(self.found.as_dict()))
        self.assertEqual((again["bound"], again["best"], len(again["solutions"])), (14, 14, 3))
        self.assertEqual(again["solutions"][1]["gap"], 2)

    def test_pickled(self):
        self.assertEqual(str(pickle.loads(pickle.dumps(self.found))), str(self.found))

    @needs("pandas")
    def test_frame(self):
        frame = self.found.to_dataframe()
        self.assertEqual(list(frame["length"].dropna()), [14, 16])
        self.assertEqual(str(frame["length"].dtype), "Int64")


class Command(unittest.TestCase):
    def test_every_kind_of_line(self):
        with tempfile.TemporaryDirectory() as folder:
            bad, gone = Path(folder, "a b"), Path(folder, "gone")
            bad.write_bytes(b"TYPE : TOUR\nx\n")
            lines = (
                "type TSP\nnodes 4\nbound 14\n"
                f"14 optimal {AROUND}\n16 gap 2 {ACROSS}\nno RepeatedNode 3 -\n"
                f"line 2 word 0: UnknownLine {bad}\ndevice {gone}\n"
            ).encode()
            words = ("compare", RECT, AROUND, ACROSS, "-", bad, gone, "--potentials", ZERO)
            more = f"{bad}: line 2 word 0: UnknownLine: x\n{gone}: No such file or directory\n".encode()
            self.assertEqual(run(*words, stdin=TWICE), (5, lines, more))
            self.assertEqual(run(*words, "--tsv", stdin=TWICE)[2], b"")
            self.assertEqual(run(*words[:-4], stdin=TWICE)[:2], (1, lines.split(b"line 2")[0].replace(b"bound 14\n", b"")
                             .replace(b" optimal", b"").replace(b" gap 2", b"")))
            self.assertEqual(run("compare", RECT, bad, AROUND)[0], 2)
        between = ("compare", "--potentials", ZERO, RECT, AROUND, "--explain", ACROSS, "-")
        lines = f"type TSP\nnodes 4\nbound 14\n14 optimal {AROUND}\n16 gap 2 {ACROSS}\nno RepeatedNode 3 -\n".encode()
        self.assertEqual(run(*between, stdin=TWICE)[:2], (1, lines))
        sol = EXAMPLES / "solvers/dairy.cvrplib.sol"
        lines = f"type CVRP\nnodes 8\nleast 2\n231 routes 2 {sol}\n".encode()
        self.assertEqual(run("compare", "--foreign", EXAMPLES / "dairy.vrp", sol), (0, lines, b""))

    def test_refused(self):
        self.assertEqual(run("compare", RECT)[0], 4)
        self.assertIn(b"unrecognized arguments: --fast", run("compare", RECT, AROUND, "--fast", ACROSS)[2])
        self.assertIn(b"unrecognized arguments: more", run("check", RECT, AROUND, "more")[2])
        twice = (4, b"", b"standard input is read once\n")
        self.assertEqual(run("compare", RECT, "-", "-"), twice)
        self.assertEqual(run("compare", "-", "-", "--potentials", ZERO), twice)
        self.assertEqual(run("compare", RECT, AROUND, "--tsv", "--json"), (4, b"", b"both --tsv and --json\n"))

    def test_first_faults(self):
        fault = (2, b"", b"file 1: line 1 word 0: Outside: standard input: HCP\n")
        self.assertEqual(run("compare", "-", AROUND, stdin=b"TYPE : HCP\n"), fault)
        fault = (2, b"", b"file 2: line 1 word 0: Outside: standard input: HCP\n")
        self.assertEqual(run("compare", RECT, AROUND, "--branches", "-", stdin=b"TYPE : HCP\n"), fault)
        self.assertEqual(run("compare", AROUND, AROUND), (2, b"", f"file 1: wrong kind: {AROUND}\n".encode()))
        gone = b"file 2: device: gone: No such file or directory\n"
        self.assertEqual(run("compare", RECT, AROUND, "--potentials", "gone"), (5, b"", gone))
        lines = b"type TSP\nnodes 4\nno PotentialsDimension\n"
        wrong = EXAMPLES / "harbour.potentials"
        self.assertEqual(run("compare", RECT, "gone", "--potentials", wrong), (1, lines, b""))

    def test_tables(self):
        with tempfile.TemporaryDirectory() as folder:
            best = Path(folder, "best")
            best.write_text("rectangle 14\n")
            words = ("compare", RECT, AROUND, ACROSS, "--best", best)
            status, out, err = run(*words, "--tsv", "--summary")
            rows = [line.split("\t") for line in out.decode().splitlines()]
            self.assertEqual((status, rows[0][1:4], rows[2][1:4]), (0, ["solution", "verdict", "length"],
                             [str(ACROSS), "yes", "16"]))
            self.assertEqual(rows[2][8], "14.2857")
            said = f"2 of 2 accepted; shortest 14 ({AROUND}); +0.0000 % from the best known 14\n"
            self.assertEqual(err.decode(), said)
            status, out, err = run(*words, "--json")
            self.assertEqual((status, json.loads(out)["summary"], err), (0, said.rstrip("\n"), b""))
            best.write_text("rectangle x\n")
            self.assertEqual(run(*words)[::2], (2, f"{best}: line 1: a name and a whole length are wanted: rectangle x\n".encode()))
            best.write_text("other 1\n")
            self.assertEqual(run(*words), (2, b"", f"{best}: there is no best-known length of rectangle\n".encode()))

    def test_explained(self):
        status, out, err = run("compare", "--explain", RECT, "-", AROUND, stdin=TWICE)
        self.assertEqual((status, out.count(b"\n")), (1, 4))
        self.assertIn(b"  Place 3 has node 2", err)

    @unittest.skipUnless(os.path.exists("/dev/full"), "there is no /dev/full")
    def test_a_full_device(self):
        with open("/dev/full", "wb") as full:
            status, _, err = run("compare", RECT, AROUND, stdout=full)
        self.assertEqual((status, err), (5, b"output: device\n"))


if __name__ == "__main__":
    unittest.main()
