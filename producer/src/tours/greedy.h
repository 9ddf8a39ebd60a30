// A tour of the shortest edges that fit, and the neighbours of each node.
// Source: J. L. Bentley, Fast algorithms for geometric traveling salesman problems (1992).
#pragma once
#include "points/problem.h"

namespace potentials {
// Of each node some others, near ones first, by cost(i, j) + p(i) + p(j).
struct Neighbours {
  std::vector<int> starts;  // of a node's part of the lists; one more at the end
  std::vector<int> nodes;
  std::vector<double> costs;
};

// The lightest ones of each node, and those of these edges.
Neighbours neighbours_of(const Problem& problem, const std::vector<double>& numbers, int count,
                         const std::vector<Edge>& more);
// A tour with all fixed edges, by the same costs.
Tour greedy_tour(const Problem& problem, const std::vector<double>& numbers, const Neighbours& neighbours);
}  // namespace potentials
