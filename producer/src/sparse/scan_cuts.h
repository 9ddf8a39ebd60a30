// Sets of nodes that a solution crosses less than twice, in large graphs: scans by maximum adjacency, each of
// which contracts all edges whose ends no such set separates. Between them whole edges and triangles are
// contracted: if there was such a set, there still is one.
// Sources: H. Nagamochi, T. Ono, T. Ibaraki, Implementing an efficient minimum capacity cut algorithm (1994);
// M. Padberg, G. Rinaldi, An efficient algorithm for the minimum capacity cut problem (1990).
#pragma once
#include "cuts/support.h"

namespace sparse {
std::vector<certify::NodeSet> small_cuts(const certify::Graph& graph, double least_violation);
}  // namespace sparse
