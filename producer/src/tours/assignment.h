// The cheapest way to give each node another one that comes next: cycles over all nodes, with duals.
// Source: R. Jonker and A. Volgenant, A shortest augmenting path algorithm for dense and sparse linear
// assignment problems (1987).
#pragma once
#include "graphs/tour.h"

namespace certify {
struct Assignment {
  std::vector<int> next;                  // of each node
  std::vector<Weight> leaving, entering;  // duals: at most the weight of an arc, and equal on those of next
};

// No node is its own next one. There are at least two nodes.
Assignment cheapest_assignment(const Matrix& weights);
}  // namespace certify
