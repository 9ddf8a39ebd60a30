"""The calls `publish` and `verify`: the folder of a result, and what its check says where something was changed."""

import hashlib
import os
import shlex
import shutil
import subprocess
import sys
import tempfile
import unittest
from pathlib import Path

import yokecairn
from support import EXAMPLES
from test_command import run

FILES = ("harbour.tsp", "harbour.tour", "harbour.potentials")

# The steps of a folder that holds.
WHOLE = [("files", True), ("SHA256SUMS", True), ("report", True), ("recheck", True), ("README", True), ("recheck.py", True), ("versions", None)]


class Published(unittest.TestCase):
    @classmethod
    def setUpClass(cls):
        cls.made = tempfile.TemporaryDirectory()
        cls.addClassCleanup(cls.made.cleanup)
        cls.template = Path(cls.made.name, "result")
        cls.report = yokecairn.publish(cls.template, *(EXAMPLES / name for name in FILES))

    def setUp(self):
        self.scratch = tempfile.TemporaryDirectory()
        self.folder = Path(self.scratch.name, "result")

    def tearDown(self):
        self.scratch.cleanup()

    def publish(self):
        """Puts a copy of the published folder in its place."""
        shutil.rmtree(self.folder, ignore_errors=True)
        shutil.copytree(self.template, self.folder)

    def seal(self):
        """Writes the sums anew, as someone does who wants to hide a change."""
        names = sorted(it.name for it in self.folder.iterdir() if it.name != "SHA256SUMS")
        lines = (f"{hashlib.sha256((self.folder / name).read_bytes()).hexdigest()}  {name}\n" for name in names)
        (self.folder / "SHA256SUMS").write_text("".join(lines), encoding="utf-8", errors="surrogateescape")

    def steps(self):
        return [(step.what, step.holds) for step in yokecairn.verify(self.folder)]

    def failing(self):
        """What fails, and what is said of it."""
        found = yokecairn.verify(self.folder)
        self.assertFalse(found.yes)
        return {step.what: step.said for step in found if step.holds is False}

    def rewrite(self, name, old, new):
        """Puts one text in the place of another in a file of the folder."""
        path = self.folder / name
        text = path.read_text()
        self.assertIn(old, text)
        path.write_text(text.replace(old, new))

    def test_a_tour(self):
        self.publish()
        self.assertTrue(self.report.optimal)
        self.assertEqual(sorted(it.name for it in self.folder.iterdir()),
                         sorted([*FILES, "README", "SHA256SUMS", "recheck", "recheck.py", "report", "versions"]))
        for name in FILES:
            self.assertEqual((self.folder / name).read_bytes(), (EXAMPLES / name).read_bytes())
        text = "type TSP\nnodes 8\nlength 226\nbound 226\noptimal\nyes\n"
        self.assertEqual([(self.folder / it).read_text() for it in ("report", "recheck")], [text, text])
        self.assertIn("its length is 226. No tour is shorter.\n", (self.folder / "README").read_text())
        found = yokecairn.verify(self.folder)
        self.assertTrue(found.yes)
        self.assertEqual(self.steps(), WHOLE)
        lines = str(found).splitlines()
        version = yokecairn.__version__
        said = "The tour visits each of the 8 nodes once, and its length is 226. No tour is shorter."
        self.assertEqual(lines[:6], [
            "files: holds against README: the folder has the 9 files of a published result, and no other",
            "SHA256SUMS: holds against the other files: each of the 8 has its sum",
            f"report: holds against libtsp {version}, which is proved: {said}",
            "recheck: holds against this package's recheck.py: it prints the same report",
            "README: holds against the one that this package writes: it is the same",
            "recheck.py: holds against this package's copy: it is the same",
        ])
        self.assertTrue(lines[6].startswith(f"versions: not checked against anything: by the publisher's word, libtsp {version}"))
        self.assertEqual(lines[7:], ["yes"])

    def test_routes_of_another_program(self):
        yokecairn.publish(self.folder, EXAMPLES / "dairy.vrp", EXAMPLES / "solvers/dairy.cvrplib.sol")
        self.assertTrue((self.folder / "dairy.cvrplib.sol.tour").read_text().startswith("TYPE : TOUR\nCOMMENT : Cost 231\n"))
        self.assertEqual(self.steps(), [*WHOLE[:2], ("dairy.cvrplib.sol.tour", True), *WHOLE[2:]])
        self.assertTrue(yokecairn.verify(self.folder).yes)
        shutil.rmtree(self.folder)
        yokecairn.publish(self.folder, EXAMPLES / "dairy.vrp", EXAMPLES / "solvers/dairy.cvrplib.sol", branches=EXAMPLES / "dairy.branches")
        said = "their length is 231. No plan with a customer in each route is shorter.\n"
        self.assertIn(said, (self.folder / "README").read_text())
        self.assertIn("    python3 recheck.py dairy.vrp dairy.cvrplib.sol.tour --branches dairy.branches\n", (self.folder / "README").read_text())
        (self.folder / "dairy.cvrplib.sol").write_text("Route #1: 5 4 3 6\nRoute #2: 1 7 2\nCost 231\n")
        self.seal()
        self.assertIn(("dairy.cvrplib.sol.tour", False), self.steps())

    def test_what_was_changed(self):
        tour = "TYPE : TOUR\nTOUR_SECTION\n1 2 3 4 8 5 7 6\n-1\nEOF\n"
        changes = {
            "harbour.tour": (tour, {"report", "recheck", "README"}),
            "harbour.potentials": (None, {"report", "recheck"}),
            "report": ("type TSP\nnodes 8\nlength 225\nbound 225\noptimal\nyes\n", {"report", "recheck"}),
            "recheck": ("yes\n", {"recheck"}),
            "README": (None, {"README"}),
            "recheck.py": ("print('yes')\n", {"recheck.py"}),
            "versions": ("\x1b[2J\n", {"versions"}),
        }
        for name, (text, wanted) in changes.items():
            with self.subTest(name):
                self.publish()
                path = self.folder / name
                path.write_text(path.read_text().replace("1 ", "2 ", 1).replace("226", "225") if text is None else text)
                self.assertIn(f"it has another sum for {name}", self.failing()["SHA256SUMS"])
                self.seal()
                self.assertEqual(set(self.failing()), wanted)

    def test_a_readme_that_says_more(self):
        for old, new in (("length is 226", "length is 225"), ("\nfiles\n", "\nIt was proved.\n\nfiles\n"), ("SHA256SUMS\n", "SHA256SUMS\n\nSee y\n")):
            with self.subTest(new):
                self.publish()
                self.rewrite("README", old, new)
                self.seal()
                self.assertEqual(list(self.failing()), ["README"])
        said = "its line 1 is 'The tour visits each of the 8 nodes once, and its length is 225. No tour is shorter.'"
        self.publish()
        self.rewrite("README", "length is 226", "length is 225")
        self.assertTrue(self.failing()["README"].startswith(said))

    def test_another_version(self):
        self.publish()
        self.rewrite("versions", f"libtsp {yokecairn.__version__}", "libtsp 0.0.1")
        self.rewrite("README", "Each of these lines", "These lines")
        self.seal()
        self.assertIn("versions names libtsp 0.0.1, and this is", self.failing()["README"])

    def test_a_report_of_another_instance(self):
        yokecairn.publish(self.folder, EXAMPLES / "rectangle.tsp", EXAMPLES / "rectangle-1-2-3-4.tour")
        for name, text in (("report", "14"), ("recheck", "14"), ("README", "is 14")):
            self.rewrite(name, text, text.replace("14", "13"))
        self.seal()
        self.assertEqual(self.failing()["report"], "its line 3 is 'length 13', and should be 'length 14'")
        shutil.copyfile(EXAMPLES / "three-node.atsp", self.folder / "rectangle.tsp")
        self.seal()
        self.assertEqual(self.failing()["report"], "no TourLength")

    def test_files_more(self):
        self.publish()
        for name in ("json.py", ".hidden", "a\x1b[2Jb", "a\u202eb", "a\udcffb"):
            shown = name.replace("\x1b", "\\x1b").replace("\u202e", "\\u202e").replace("\udcff", "\\xff")
            with self.subTest(shown):
                (self.folder / name).write_text("raise SystemExit\n")
                self.seal()
                self.assertEqual(self.failing(), {"files": f"it doesn't name {shown}", "SHA256SUMS": f"it lists another file: {shown}"})
                (self.folder / name).unlink()
        for number in range(101):
            (self.folder / f"{number}").touch()
        self.assertIn("(the first 100 files were looked at)", self.failing()["files"])

    @unittest.skipUnless(hasattr(os, "mkfifo"), "the system has no pipes with names")
    def test_what_is_no_plain_file(self):
        def link(path):
            path.symlink_to(EXAMPLES / "harbour.tour")

        def large(path):
            path.touch()
            os.truncate(path, 2**30 + 1)

        made = ((link, "is a link"), (Path.mkdir, "is no file"), (os.mkfifo, "is no file"), (large, "has 1073741825 bytes, and 1073741824 are the most"))
        for make, said in made:
            for name in ("harbour.tour", "report", "README"):
                with self.subTest(name, said=said):
                    self.publish()
                    (self.folder / name).unlink()
                    make(self.folder / name)
                    wanted = f"{name} {said}" if name == "harbour.tour" else f"{name} {said.replace('1073741824', '1048576')}"
                    if name == "README":
                        with self.assertRaisesRegex(ValueError, wanted):
                            yokecairn.verify(self.folder)
                    else:
                        self.assertEqual(self.failing(), {"files": wanted})

    @unittest.skipUnless(shutil.which("sh"), "there is no shell")
    def test_what_the_readme_runs(self):
        """Its lines run as they are; the one that verifies runs no file of the folder."""
        self.publish()
        (self.folder / "hashlib.py").write_text("print('yes')\nraise SystemExit\n")
        lines = [line[4:] for line in (self.folder / "README").read_text().splitlines() if line.startswith("    ")]
        self.assertEqual([line.split(" ")[:2] for line in lines[1:]], [["tsp", "check"], ["python3", "recheck.py"], ["sha256sum", "-c"]])
        places = {"PYTHONPATH": str(Path(yokecairn.__file__).parents[1]), "PYTHONDONTWRITEBYTECODE": "1"}

        def runs(line):
            words = {"cwd": self.folder, "env": {**os.environ, **places}, "capture_output": True, "text": True, "check": False}
            ended = subprocess.run(["sh", "-c", line.replace("python3", shlex.quote(sys.executable))], **words)
            return ended.returncode, ended.stdout.splitlines()

        status, told = runs(lines[0])
        self.assertEqual((status, told[0], told[-1]), (1, "files: FAILS against README: it doesn't name hashlib.py", "no"))
        (self.folder / "hashlib.py").unlink()
        for line in (lines[0], lines[2]):
            status, told = runs(line)
            self.assertEqual((status, told[-1]), (0, "yes"), line)

    def test_sums(self):
        self.publish()
        sums = self.folder / "SHA256SUMS"
        whole = sums.read_text()
        first = whole.splitlines(True)[0]
        for text, said in (
            (whole.replace(first, ""), "it doesn't list README"),
            (f"{whole}x\n", "this line is no sum with a name: x"),
            (whole + first, "it lists a file twice"),
            (f"{whole}{64 * '0'}  ../x\n", "it lists another file: ../x"),
        ):
            sums.write_text(text)
            self.assertEqual(self.failing(), {"SHA256SUMS": said})

    def test_what_is_missing(self):
        self.publish()
        (self.folder / "harbour.tsp").unlink()
        self.assertEqual(run("verify", self.folder), (1, b"files: FAILS against README: there is no harbour.tsp\nno\n", b""))
        (self.folder / "README").unlink()
        said = f"{self.folder / 'README'}: No such file or directory: publish made no such folder\n"
        self.assertEqual(run("verify", self.folder), (5, b"", said.encode()))

    def test_names(self):
        for name, said in (
            ("../harbour.tsp", "is in another folder"), ("/etc/passwd", "is in another folder"), ("a\\b", "is in another folder"),
            ("..", "is in another folder"), ("", "is in another folder"), ("--potentials", "begins with -"), ("README", "that of a file that publish writes"),
            ("a\x1b[2Jb", "has a line end, a control byte"), ("a\u2028b", "has a line end"), ("a\rb", "has a line end"),
            ("harbour.tour", "gives two files one name"),
        ):
            with self.subTest(name):
                self.publish()
                path = self.folder / "README"
                path.write_bytes(path.read_bytes().replace(b"instance: harbour.tsp", f"instance: {name}".encode()))
                with self.assertRaisesRegex(ValueError, said):
                    yokecairn.verify(self.folder)

    def test_what_is_not_published(self):
        with self.assertRaisesRegex(ValueError, "nothing is published: no LengthClaimed 226: it claims 225"):
            yokecairn.publish(self.folder, EXAMPLES / "harbour.tsp", EXAMPLES / "harbour.tour", length=225)
        self.assertFalse(self.folder.exists())
        with self.assertRaisesRegex(ValueError, "isn't empty"):
            yokecairn.publish(self.template, EXAMPLES / "harbour.tsp", EXAMPLES / "harbour.tour")
        with self.assertRaisesRegex(ValueError, "this is a file, and not a folder: .*README"):
            yokecairn.publish(self.template / "README", EXAMPLES / "harbour.tsp", EXAMPLES / "harbour.tour")

    def test_names_that_are_not_published(self):
        with tempfile.TemporaryDirectory() as scratch:
            for name, said in (("-x.tour", "begins with -"), ("a\nb.tour", "has a line end"), ("report", "that of a file that publish writes")):
                path = Path(scratch, name)
                shutil.copyfile(EXAMPLES / "harbour.tour", path)
                with self.subTest(name), self.assertRaisesRegex(ValueError, said):
                    yokecairn.publish(self.folder, EXAMPLES / "harbour.tsp", path)
                self.assertFalse(self.folder.exists())
            path = Path(scratch, "it's $HOME.tour")
            shutil.copyfile(EXAMPLES / "harbour.tour", path)
            yokecairn.publish(self.folder, EXAMPLES / "harbour.tsp", path)
            self.assertTrue(yokecairn.verify(self.folder).yes)
            self.assertIn("    tsp check harbour.tsp 'it'\"'\"'s $HOME.tour'\n", (self.folder / "README").read_text())

    def test_the_command(self):
        words = ("publish", self.folder, *(EXAMPLES / name for name in FILES[:2]), "--potentials", EXAMPLES / FILES[2])
        self.assertEqual(run(*words), (0, b"type TSP\nnodes 8\nlength 226\nbound 226\noptimal\nyes\n", b""))
        status, out, _ = run("verify", self.folder)
        self.assertEqual((status, out.splitlines()[-1]), (0, b"yes"))
        (self.folder / "report").write_text("yes\n")
        self.assertEqual(run("verify", self.folder)[0], 1)
        self.assertEqual(run("verify", self.folder / "none")[0], 5)
        self.assertEqual(run(*words)[0], 2)
        status, out, err = run("publish", self.folder / "x", EXAMPLES / "harbour.tsp", EXAMPLES / "harbour.tour", "--length", "1")
        self.assertEqual((status, out), (1, b""))
        self.assertTrue(err.startswith(b"nothing is published: no LengthClaimed 226: it claims 1\n"))
        self.assertTrue(err.endswith(b"  Its length is 226.\n"))


if __name__ == "__main__":
    unittest.main()
