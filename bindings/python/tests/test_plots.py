"""The pictures of `Problem.plot` and `Comparison.plot`, where a Python has matplotlib."""

import subprocess
import tempfile
import unittest
from importlib.util import find_spec
from pathlib import Path

import yokecairn
from support import EXAMPLES, PACKAGE, needs_python_with, python_with

SCRIPT = f"""
import sys
sys.path.insert(0, {str(PACKAGE)!r})
import matplotlib
matplotlib.use("Agg")
import yokecairn
from pathlib import Path
examples, folder = Path({str(EXAMPLES)!r}), Path(sys.argv[1])

def drawn(ax):
    # of each line how many edges it has, by its breaks, and its label
    return sorted((sum(x != x for x in line.get_xdata()), line.get_label()) for line in ax.lines)

def is_inside(ax):
    # whether the legend and the names are in the picture
    ax.figure.canvas.draw()
    texts = [ax.title, *ax.get_xticklabels(), *ax.get_legend().get_texts()]
    boxes = [text.get_window_extent() for text in texts if text.get_text()]
    return all(0 <= box.x0 and box.x1 <= ax.figure.bbox.x1 and 0 <= box.y0 and box.y1 <= ax.figure.bbox.y1 for box in boxes)

problem = yokecairn.load(examples / "harbour.tsp")
tour = yokecairn.load(examples / "harbour.tour")
ax = problem.plot(tour)
assert drawn(ax) == [(8, "_child1")] or [it[0] for it in drawn(ax)] == [8], drawn(ax)
assert len(ax.collections[0].get_offsets()) == 8 and len(ax.texts) == 8
ax.figure.savefig(folder / "tour.png")
other = [1, 2, 3, 4, 8, 5, 7, 6]
ax = problem.plot(tour, other)
assert drawn(ax) == [(2, "the first tour alone"), (2, "the second tour alone"), (6, "both")], drawn(ax)
assert is_inside(ax)
ax.figure.savefig(folder / "tours.png")
dairy = yokecairn.load(examples / "dairy.vrp")
ax = dairy.plot([[5, 6, 4, 7], [2, 8, 3]])
assert [it[0] for it in drawn(ax)] == [4, 5] and len(ax.collections[1].get_offsets()) == 1
assert len({{line.get_color() for line in ax.lines}}) == 2
ax.figure.savefig(folder / "routes.png")
for given in examples / "solvers/dairy.cvrplib.sol", str(examples / "solvers/dairy.cvrplib.sol"):
    assert [it[0] for it in drawn(dairy.plot(given))] == [4, 5]
assert [it[0] for it in drawn(problem.plot(examples / "harbour.tour"))] == [8]
long = problem.replace(name="a name of an instance that is as long as a line of a page, and is told whole")
ax = long.plot(tour)
ax.figure.canvas.draw()
box = ax.title.get_window_extent()
assert 0 <= box.x0 and box.x1 <= ax.figure.bbox.x1 and box.y1 <= ax.figure.bbox.y1, box
ax.figure.savefig(folder / "long.png")
for wrong, given in ((yokecairn.NodeError, (problem, [1, 9])), (ValueError, (yokecairn.load(examples / "three-node.atsp"), None))):
    try:
        given[0].plot(given[1])
    except wrong:
        continue
    raise AssertionError(given)
tours = {{"best": tour, "other": other, "twice": [1, 1, 2, 3, 4, 5, 6, 7]}}
found = yokecairn.compare(examples / "harbour.tsp", tours, potentials=examples / "harbour.potentials", best=230)
ax = found.plot()
assert [point[1] for point in ax.collections[0].get_offsets()] == sorted(report.length for _, report in found.accepted())
assert [line.get_ydata()[0] for line in ax.lines] == [226, 230] and "1 not accepted" in ax.get_title()
assert [label.get_text() for label in ax.get_xticklabels()] == ["best", "other"]
assert is_inside(ax)
paths = {{f"/home/ann/a-long-name-of-a-folder/{{it}}.tour": tours[it] for it in ("best", "other")}}
ax = yokecairn.compare(examples / "harbour.tsp", paths, best=230).plot()
assert [label.get_text() for label in ax.get_xticklabels()] == ["best.tour", "other.tour"] and is_inside(ax)
ax.figure.savefig(folder / "comparison.png")
"""


class Plots(unittest.TestCase):
    @needs_python_with("matplotlib")
    def test_pictures(self):
        with tempfile.TemporaryDirectory() as folder:
            words = [python_with("matplotlib"), "-c", SCRIPT, folder]
            ran = subprocess.run(words, capture_output=True, text=True)
            self.assertEqual((ran.returncode, ran.stderr), (0, ""))
            for name in ("tour", "tours", "routes", "comparison"):
                self.assertGreater(Path(folder, f"{name}.png").stat().st_size, 5000, name)

    def test_without_matplotlib(self):
        if find_spec("matplotlib") is None:
            with self.assertRaises(ImportError):
                yokecairn.load(EXAMPLES / "harbour.tsp").plot()


if __name__ == "__main__":
    unittest.main()
