// Segments of a tour that a solution crosses less than twice. For each first node the segment that is crossed
// least is found exactly, by a tree of the ends.
// Source: D. Applegate, R. Bixby, V. Chvatal and W. Cook, The Traveling Salesman Problem (2006), on segment
// cuts.
#pragma once
#include "cuts/support.h"

namespace sparse {
// No two of them begin or end at the same node. The most violated ones come first.
std::vector<certify::NodeSet> segment_cuts(const certify::Graph& graph, const certify::Tour& tour,
                                           double least_violation);
}  // namespace sparse
