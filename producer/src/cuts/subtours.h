// Sets of nodes that a solution of the linear program crosses less than twice: components, else the
// cuts of the phases of Stoer and Wagner on the graph with whole edges shrunk.
// Sources: M. Stoer and F. Wagner, A simple min-cut algorithm (1997); M. Padberg and G. Rinaldi,
// An efficient algorithm for the minimum capacity cut problem (1990).
#pragma once
#include "cuts/support.h"

namespace certify {
std::vector<NodeSet> crossed_too_little(const Graph& graph, double least_violation);
}  // namespace certify
