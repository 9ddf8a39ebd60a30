"""The call `table` and the verb `table`: several solvers on many instances, with ranks, gaps, what isn't accepted, and each
form of the table."""

import csv
import io
import json
import os
import shutil
import tempfile
import unittest
from pathlib import Path

import yokecairn
from support import EXAMPLES, PACKAGE, needs
from test_command import run
from yokecairn.contest import find

TOUR = "TYPE : TOUR\nTOUR_SECTION\n{}\n-1\nEOF\n"


class Contests(unittest.TestCase):
    """The harbour (226 is optimal) and the rectangle (14, 16 and 18), the dairy's routes (231), and three solvers."""

    def setUp(self):
        self.scratch = tempfile.TemporaryDirectory()
        self.top = top = Path(self.scratch.name)
        for name in ("harbour.tsp", "harbour.potentials", "rectangle.tsp", "dairy.vrp"):
            (top / "instances").mkdir(exist_ok=True)
            shutil.copy(EXAMPLES / name, top / "instances" / name)
        tours = {
            "ant/harbour.tour": TOUR.format("1 2 3 4 8 5 6 7"),
            "ant/rectangle.tour": TOUR.format("1 3 2 4"),
            "ant/dairy.sol": "Route #1: 4 5 3 6\nRoute #2: 1 7 2\nCost 230\n",
            "bee/harbour.run1.tour": TOUR.format("1 2 3 4 8 5 7 6"),
            "bee/rectangle.txt": "0 1 2 3\n",
            "bee/dairy.sol": "Route #1: 4 5 3 6\nRoute #2: 1 7 2\nCost 231\n",
            "cat/rectangle.tour": TOUR.format("1 2 2 3"),
            "cat/rectangle.log": "a log",
            "cat/.hidden.tour": "",
            "best.txt": "harbour8 226\nrectangle 10\n",
        }
        for name, text in tours.items():
            (top / name).parent.mkdir(exist_ok=True)
            (top / name).write_text(text)

    def tearDown(self):
        self.scratch.cleanup()

    def table(self, **more):
        return yokecairn.table(self.top, best=self.top / "best.txt", workers=2, **more)

    def refused(self, said, *places):
        with self.assertRaises(ValueError) as caught:
            find(places or [self.top])
        self.assertIn(said, str(caught.exception))

    def test_what_is_found(self):
        found = find([self.top])
        self.assertEqual(len(found.entries), 7)
        self.assertEqual((sorted(found.instances), sorted(found.solvers)), (["dairy", "harbour", "rectangle"], ["ant", "bee", "cat"]))
        harbour = next(it for it in found.entries if it.solver == "bee" and "harbour" in it.instance)
        self.assertEqual((Path(harbour.solution).name, Path(harbour.potentials).name, harbour.run), ("harbour.run1.tour", "harbour.potentials", "run1"))
        apart = find([self.top / "instances", self.top / "ant", self.top / "cat"])
        self.assertEqual((len(apart.entries), sorted(apart.solvers)), (4, ["ant", "cat"]))

    def test_all_instances_and_solvers(self):
        shutil.copy(EXAMPLES / "prism.tsp", self.top / "instances/aprism.tsp")
        (self.top / "bare").mkdir()
        found = self.table()
        self.assertEqual(found.instances, ["aprism", "dairy", "harbour", "rectangle"])
        self.assertEqual(found.solvers, ["ant", "bare", "bee", "cat"])
        rows = {(row["instance"], row["solver"]): row for row in found.as_rows()}
        self.assertEqual(len(rows), 16)
        self.assertEqual({rows["aprism", solver]["verdict"] for solver in found.solvers}, {"missing"})
        self.assertEqual({rows[instance, "bare"]["verdict"] for instance in found.instances}, {"missing"})
        self.assertEqual((rows["harbour", "ant"]["rank"], rows["harbour", "bare"]["rank"]), (1, 4))
        self.assertIn(("aprism", "bee", "missing"), found.rejected())
        self.assertEqual(run("table", self.top)[0], 1)

    def test_status_where_something_is_missing(self):
        for name in ("ant/dairy.sol", "cat/rectangle.tour"):
            (self.top / name).unlink()
        shutil.copy(self.top / "bee/dairy.sol", self.top / "ant/dairy.sol")
        shutil.rmtree(self.top / "cat")
        self.assertEqual(run("table", self.top)[0], 0)
        (self.top / "cat").mkdir()
        status, out, _ = run("table", self.top)
        self.assertEqual((status, out.splitlines()[:2]), (1, [b"not accepted: dairy, cat: missing", b"not accepted: harbour, cat: missing"]))
        shutil.rmtree(self.top / "cat")
        shutil.copy(EXAMPLES / "prism.tsp", self.top / "instances/prism.tsp")
        self.assertEqual(run("table", self.top)[0], 1)

    def test_wrong_names(self):
        wrong = {
            "ant/harbor.tour": "there is no instance harbor: is harbour meant?",
            "ant/other.tour": "there is no instance other",
            "ant/best.txt": "there is no instance best",
            "cat/harbour.tuor": "the name of a solution ends in .tour, .sol",
            "instances/harbor.branches": "there is no instance harbor beside it: is harbour meant?",
            "ant/harbour.potentials": "there is no instance harbour beside it",
            "bee/rectangle.vrp": "two instances have the name rectangle",
        }
        for name, said in wrong.items():
            with self.subTest(name):
                path = self.top / name
                path.write_text("")
                self.refused(said)
                self.refused(name if "instances" not in said else "bee/rectangle.vrp")
                status, out, err = run("table", self.top)
                self.assertEqual((status, out), (2, b""))
                self.assertIn(os.fsencode(said), err)
                path.unlink()
        for number in range(12):
            (self.top / f"ant/x{number}.tour").touch()
        self.refused("\nand 2 more")

    def test_notes(self):
        for name in ("instances/README.txt", "notes.txt", "README.md"):
            (self.top / name).write_text("x\n")
        self.assertEqual(sorted(find([self.top]).solvers), ["ant", "bee", "cat"])

    def test_dots_in_names(self):
        shutil.copy(EXAMPLES / "rectangle.tsp", self.top / "instances/a.b.tsp")
        (self.top / "ant/a.b.run.2.tour").write_text(TOUR.format("1 2 3 4"))
        found = self.table()
        self.assertEqual((found.length("a.b", "ant"), list(found.runs("a.b", "ant"))), (14, ["run.2"]))

    def test_runs(self):
        for number, nodes in enumerate(("1 3 2 4", "1 2 4 3", "1 2 2 3"), 2):
            (self.top / f"bee/rectangle.run{number}.tour").write_text(TOUR.format(nodes))
        (self.top / "bee/times.csv").write_text("instance,run,seconds\nrectangle,run2,1.5\nrectangle,run3,2.5\nharbour,run1,4\n")
        found = self.table()
        row = found._row("rectangle", "bee")
        self.assertEqual((row["runs"], row["accepted"], row["length"], row["mean"], row["worst"]), (4, 3, 14, 16.0, 18))
        self.assertEqual((row["best_percent"], row["mean_best_percent"], row["seconds"], row["verdict"]), (40.0, 60.0, 2.0, "yes"))
        self.assertEqual(row["detail"], "run4: RepeatedNode 3")
        self.assertIn(("rectangle", "bee", "run4: RepeatedNode 3"), found.rejected())
        self.assertEqual({run: it.length for run, it in found.runs("rectangle", "bee").items()}, {"": 14, "run2": 18, "run3": 16, "run4": None})
        self.assertEqual(found["rectangle", "bee"].length, 14)
        for written in ("2", "run2"):  # as people write it in a file of times
            (self.top / "bee/times.csv").write_text(f"instance,run,seconds\nrectangle,{written},1.5\nrectangle,3,2.5\n")
            self.assertEqual(self.table()._row("rectangle", "bee")["seconds"], 2.0)
        text = str(found)
        self.assertIn("14 +40.00 %, mean 16.00, worst 18, 3 of 4 runs", text)
        self.assertRegex(text, r"\nmean % over best, all runs .* 38.1858")
        self.assertRegex(text, r"\nmean seconds .* 3.00")
        self.assertEqual(found._row("harbour", "bee")["mean_gap_percent"], found._row("harbour", "bee")["gap_percent"])
        (self.top / "bee/rectangle.run2.sol").write_text("Route #1: 1\n")
        with self.assertRaisesRegex(ValueError, "bee has two solutions of rectangle, run run2"):
            self.table()

    def test_times(self):
        path = self.top / "ant/times.csv"
        for text, said in (
            ("a,b\n", "times.csv:1: the columns instance and seconds"), ("instance,seconds\nharbour,x\n", "times.csv:2: this is no number of seconds: x"),
            ("instance,seconds\nharbour,-1\n", "no number of seconds: -1"), ("instance,seconds\nharbour\n", "no number of seconds: None"),
            ("instance,seconds\nharbor,1\n", "times.csv:2: there is no instance harbor: is harbour meant?"),
            ("instance,seconds\nharbour,1\nharbour,2\n", "times.csv:3: a run of harbour comes twice"),
        ):
            with self.subTest(text):
                path.write_text(text)
                self.refused(said)

    def test_times_beside_the_folders(self):
        (self.top / "times.csv").write_text("instance,seconds\nharbour,1\n")
        self.refused("times.csv: a file of times is looked for in a solver's folder")

    def test_times_of_no_solution(self):
        (self.top / "bee/times.csv").write_text("instance,run,seconds\nharbour,run1,4\nharbour,run2,5\nharbour,,6\n")
        (self.top / "cat/times.csv").write_text("instance,seconds\ndairy,4\n")
        lines = [line for line in str(self.table()).splitlines() if line.startswith("no solution")]
        self.assertEqual(lines, ["no solution has the time of harbour, bee, without a run", "no solution has the time of harbour, bee, run run2"])

    def test_a_best_length_below_the_bound(self):
        told = "no solution of harbour has the best-known length 225: the bound 226 is above it"
        for length in (225, 226):
            (self.top / "best.txt").write_text(f"harbour8 {length}\n")
            self.assertEqual(told in str(self.table()).splitlines(), length == 225)
            self.assertEqual(f"<li>{told}</li>" in self.table().to_html(), length == 225)

    @needs("jsonschema")
    def test_schema(self):
        import jsonschema

        schema = json.loads((PACKAGE / "yokecairn/standings.schema.json").read_text())
        jsonschema.Draft202012Validator.check_schema(schema)
        (self.top / "instances/broken.tsp").write_text("x\n")
        (self.top / "bee/harbour.run2.tour").write_text(TOUR.format("1 2 3 4 8 5 6 7"))
        found = json.loads(run("table", self.top, "--json")[1])
        jsonschema.validate(found, schema)
        self.assertEqual(found["instances"][0]["fault"], "line 1 word 0: UnknownLine: x")
        runs = next(row["each"] for row in found["rows"] if (row["instance"], row["solver"]) == ("harbour", "bee"))
        self.assertEqual([(it["run"], it["length"], it["gap"]) for it in runs], [("run1", 263, 37), ("run2", 226, 0)])
        with self.assertRaises(jsonschema.ValidationError):
            jsonschema.validate({**found, "rows": [{}]}, schema)

    def test_rows_and_ranks(self):
        done = []
        found = self.table(progress=lambda count, of, name: done.append((count, of)))
        self.assertEqual(done, [(1, 3), (2, 3), (3, 3)])
        self.assertEqual((found.instances, found.solvers), (["dairy", "harbour", "rectangle"], ["ant", "bee", "cat"]))
        rows = {(row["instance"], row["solver"]): row for row in found.as_rows()}
        harbour = rows["harbour", "ant"]
        self.assertEqual((harbour["verdict"], harbour["length"], harbour["rank"], harbour["bound"]), ("optimal", 226, 1, 226))
        self.assertEqual((harbour["best"], harbour["best_percent"]), (226, 0.0))
        rectangle = rows["rectangle", "ant"]
        self.assertEqual((rectangle["length"], rectangle["rank"], rectangle["best_percent"]), (18, 2, 80.0))
        self.assertEqual((rows["rectangle", "bee"]["length"], rows["rectangle", "bee"]["rank"]), (14, 1))
        self.assertEqual((rows["rectangle", "cat"]["verdict"], rows["rectangle", "cat"]["rank"]), ("no", 3))
        self.assertEqual((rows["dairy", "cat"]["verdict"], rows["dairy", "cat"]["length"]), ("missing", None))
        # the file's own claim is 230
        self.assertEqual((rows["dairy", "ant"]["verdict"], rows["dairy", "ant"]["detail"]), ("no", "LengthClaimed 231: it claims 230"))
        self.assertEqual(self.table(claims=False).length("dairy", "ant"), 231)
        self.assertEqual(found.rejected(), [
            ("dairy", "ant", "LengthClaimed 231: it claims 230"), ("dairy", "cat", "missing"), ("harbour", "cat", "missing"),
            ("rectangle", "cat", "RepeatedNode 3"),
        ])
        self.assertEqual(found["dairy", "bee"].length, 231)
        self.assertIsNone(found["dairy", "cat"])

    def test_sums(self):
        sums = {row["solver"]: row for row in self.table().as_sums()}
        self.assertEqual((sums["ant"]["accepted"], sums["ant"]["of"], sums["ant"]["first"]), (2, 3, 1))
        self.assertEqual((sums["bee"]["accepted"], sums["bee"]["first"]), (3, 2))
        self.assertEqual((sums["ant"]["rank"], sums["bee"]["rank"], sums["cat"]["rank"]), (2.0, 4 / 3, 3.0))
        self.assertEqual(sums["ant"]["best_percent"], 40.0)
        self.assertIsNone(sums["cat"]["best_percent"])

    def test_text(self):
        lines = str(self.table()).splitlines()
        self.assertEqual(lines[:4], [
            "not accepted: dairy, ant: LengthClaimed 231: it claims 230", "not accepted: dairy, cat: missing",
            "not accepted: harbour, cat: missing", "not accepted: rectangle, cat: RepeatedNode 3",
        ])
        self.assertEqual(lines[4], "no best-known length has the NAME of dairy, dairy-n8-k2")
        self.assertNotIn("best-known", str(yokecairn.table(self.top, workers=2)))
        lines = lines[1:]
        self.assertEqual(lines[4].split(), ["instance", "best", "bound", "ant", "bee", "cat"])
        self.assertEqual(lines[6].split(), ["harbour", "226", "226", "226", "+0.00", "%*", "263", "+16.37", "%", "-"])
        self.assertEqual(lines[9].split(), ["shortest", "1", "2", "0"])
        self.assertEqual(lines[10].split(), ["mean", "rank", "2.00", "1.33", "3.00"])

    def test_what_is_not_judged(self):
        path = self.top / "instances/rectangle.tsp"
        path.write_text(path.read_text().replace("NODE_COORD", "DISTANCE : 5\nNODE_COORD"))
        self.assertIn("\nnot judged of rectangle: DISTANCE\n", str(self.table()))

    def test_other_forms(self):
        found = self.table()
        rows = list(csv.DictReader(io.StringIO(found.to_csv())))
        self.assertEqual((len(rows), rows[3]["solver"], rows[3]["length"], rows[3]["best_percent"]), (9, "ant", "226", "0.0000"))
        latex = found.to_latex()
        self.assertIn("\\begin{tabular}{lrrrrr}\n\\hline\ninstance & best & bound & ant & bee & cat \\\\", latex)
        self.assertIn("% not accepted: dairy, ant: LengthClaimed 231: it claims 230\n", latex)
        self.assertIn("226 +0.00 \\%*", latex)
        text = found.to_html()
        self.assertEqual((text.count("<li>"), text.count("<tr>"), text.count("<th>")), (5, 9, 6))
        lines = found.to_markdown().splitlines()
        self.assertEqual((lines[0], lines[5]), ("- not accepted: dairy, ant: LengthClaimed 231: it claims 230", ""))
        lines = lines[1:]
        self.assertEqual(lines[5:7], ["| instance | best | bound | ant | bee | cat |", "| --- | ---: | ---: | ---: | ---: | ---: |"])
        self.assertEqual(lines[8], "| harbour | 226 | 226 | 226 +0.00 %\\* | 263 +16.37 % | - |")
        path = self.top / "table.csv"
        self.assertIsNone(found.to_csv(path))
        self.assertEqual(path.read_text(), found.to_csv())

    @needs("pandas")
    def test_frame(self):
        frame = self.table().to_dataframe()
        self.assertEqual((len(frame), frame["length"].min()), (9, 14))

    def test_faulty_instances(self):
        (self.top / "instances/dairy.vrp").write_text("TYPE : CVRP\nx\n")
        (self.top / "best.txt").unlink()
        found = yokecairn.table([self.top / "instances", self.top / "ant"], workers=1)
        rows = {row["instance"]: row for row in found.as_rows()}
        self.assertEqual((rows["dairy"]["verdict"], rows["dairy"]["detail"]), ("fault", "line 2 word 0: UnknownLine: x"))
        self.assertEqual(rows["harbour"]["verdict"], "optimal")

    def test_entries(self):
        entry = yokecairn.Entry(EXAMPLES / "rectangle.tsp", "me", EXAMPLES / "rectangle-1-2-3-4.tour")
        self.assertEqual(yokecairn.table([entry], workers=1).length("rectangle", "me"), 14)
        with self.assertRaisesRegex(ValueError, "me has two solutions of rectangle"):
            yokecairn.table([entry, entry])
        with self.assertRaisesRegex(ValueError, "two instances have the name rectangle"):
            yokecairn.table([entry, entry._replace(instance=self.top / "instances/rectangle.tsp", solver="you")])
        with self.assertRaisesRegex(ValueError, "there is no folder of a solver"):
            yokecairn.table([self.top / "instances"])
        with self.assertRaisesRegex(ValueError, "there is no instance dairy"):
            yokecairn.table([self.top / "ant"])

    def test_a_list(self):
        lines = ["# a comment", "", "instances/harbour.tsp\tme\tant/harbour.tour\tpotentials=instances/harbour.potentials",
                 "instances/rectangle.tsp\tme\tbee/rectangle.txt", "instances/rectangle.tsp\tyou\tant/rectangle.tour"]
        path = self.top / "list.tsv"
        path.write_text("\n".join(lines) + "\n")
        found = yokecairn.table(path, workers=1)
        self.assertEqual((found.instances, found.solvers), (["harbour", "rectangle"], ["me", "you"]))
        self.assertEqual((found.length("rectangle", "me"), found.length("rectangle", "you")), (14, 18))
        self.assertTrue(found["harbour", "me"].optimal)
        for line in ("a\tb", "a\tb\tc\td", "a\tb\tc\tbranches=", "a\tb\tc\tbranches=d\te"):
            path.write_text(f"\n{line}\n")
            with self.assertRaisesRegex(ValueError, "list.tsv:2: an instance, a solver"):
                yokecairn.table(path)

    def test_the_command(self):
        words = ("table", self.top, "--best", self.top / "best.txt", "--jobs", "2")
        status, out, err = run(*words)
        self.assertEqual((status, err), (1, b""))
        self.assertIn(b"not accepted: rectangle, cat: RepeatedNode 3\n", out)
        self.assertTrue(run(*words, "--latex")[1].endswith(b"\\end{tabular}\n"))
        self.assertTrue(run(*words, "--csv")[1].startswith(b"instance,solver,verdict,"))
        self.assertEqual(run(*words, "--csv", "--html"), (4, b"", b"both --csv and --html\n"))
        self.assertEqual(run("table", self.top / "none")[0], 5)
        self.assertEqual(run("table", self.top / "instances"), (2, b"", b"there is no folder of a solver\n"))


if __name__ == "__main__":
    unittest.main()
