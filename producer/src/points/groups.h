// Groups of near nodes, for steps that move the numbers of a whole group: the components of the edges below a
// length, for lengths in a geometric series.
//
// Source: J. C. Gower, G. J. S. Ross, Minimum spanning trees and single linkage cluster analysis (1969).
// Where a 1-tree leaves a group c times, the degrees in it sum to c - 2 more than 2 for each node. So a far
// group with c = 1 is pulled by only 1 in all of its nodes, and steps of single nodes are too slow for it.
#pragma once
#include "points/problem.h"

namespace potentials {
struct Groups {
  std::vector<int> of_node;     // the least group of a node, or -1
  std::vector<int> parents;     // of the groups: a greater index, or -1
  std::vector<double> lengths;  // how far the next other node is

  int size() const { return static_cast<int>(parents.size()); }
};

// `tree` is a least 1-tree without numbers. Lengths are from `least` on, each twice the one before.
Groups groups_of(const Problem& problem, std::vector<Edge> tree, double least);
}  // namespace potentials
