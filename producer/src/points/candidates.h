// Graphs of candidate edges.
//
// Quadrant neighbours: D. S. Johnson, L. A. McGeoch, Experimental analysis of heuristics for the STSP (2002).
#pragma once
#include "points/problem.h"

namespace potentials {
// The edges of each node to its nearest ones, and to the nearest ones in each quadrant.
std::vector<Edge> near_edges(const Problem& problem, int nearest, int quadrant);
// The edges of each node to the nodes of least cost(i, j) + p(j). The special node has more of them.
std::vector<Edge> light_edges(const Problem& problem, const std::vector<double>& numbers, int count);
// One list without repeated edges, in the order of their nodes.
std::vector<Edge> joined(std::vector<Edge> edges, const std::vector<Edge>& more);
}  // namespace potentials
