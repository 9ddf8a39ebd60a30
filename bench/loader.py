"""A loader in pure Python, in the style of the package tsplib95: values in dicts, and a function for each weight.

bench/compare runs it next to the program. It reads the files that bench/compare makes, and measures tours, but it checks neither
the files nor the tours.
"""
import math
import re
from itertools import chain

KEYWORD = re.compile(r"^([A-Z_]+)\s*:\s*(.*)$")


def parsed(text):
    """The keywords and the words of each section."""
    found, section = {}, None
    for line in text.splitlines():
        line = line.strip()
        keyword = KEYWORD.match(line)
        if keyword:
            found[keyword[1]] = keyword[2]
        elif line.endswith("_SECTION"):
            section = found.setdefault(line, [])
        elif line != "EOF":
            section.append(line.split())
    return found


def euclidean(start, end):
    """The distance of two points, rounded as TSPLIB says."""
    return int(math.sqrt(sum((a - b) ** 2 for a, b in zip(start, end))) + 0.5)


class Problem:
    """An instance of points (EUC_2D) or a full matrix."""

    def __init__(self, text):
        fields = parsed(text)
        self.dimension = int(fields["DIMENSION"])
        self.node_coords = {int(node): [float(x), float(y)] for node, x, y in fields.get("NODE_COORD_SECTION", [])}
        self.edge_weights = [[int(word) for word in row] for row in fields.get("EDGE_WEIGHT_SECTION", [])]

    def get_weight(self, start, end):
        """The cost from a node to a node."""
        if self.edge_weights:
            return self.edge_weights[start - 1][end - 1]
        return euclidean(self.node_coords[start], self.node_coords[end])

    def trace(self, tour):
        """The length of a tour."""
        return sum(self.get_weight(i, j) for i, j in zip(tour, tour[1:] + tour[:1]))


def tours_of(text):
    """The tours of a file of TYPE TOUR."""
    tours = [[]]
    for node in map(int, chain.from_iterable(parsed(text)["TOUR_SECTION"])):
        if node == -1:
            tours.append([])
        else:
            tours[-1].append(node)
    return [tour for tour in tours if tour]


if __name__ == "__main__":
    import sys

    with open(sys.argv[1], encoding="utf-8") as file:
        problem = Problem(file.read())
    for path in sys.argv[2:]:
        with open(path, encoding="utf-8") as file:
            for tour in tours_of(file.read()):
                print(problem.trace(tour), path)
