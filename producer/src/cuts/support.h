// The support graph of a solution of the linear program, and its parts.
#pragma once
#include <functional>

#include "graphs/tour.h"

namespace certify {
struct Edge {
  int to;
  double value;
};
using Graph = std::vector<std::vector<Edge>>;

// The components of the edges whose value passes the test.
std::vector<NodeSet> components(const Graph& graph, const std::function<bool(double)>& passes);
// The biconnected components, of three nodes or more, of the edges with a value between two numbers.
// Source: J. Hopcroft and R. Tarjan, Algorithm 447 (1973).
std::vector<NodeSet> blocks(const Graph& graph, double above, double below);
}  // namespace certify
