// Families of any sets. Two nodes are in one atom of a family where each set has both or neither. Each tour
// crosses the sets at least as often as the shortest tour of the atoms, where the distance of two atoms is
// the number of sets between them. Sources: D. Applegate, R. Bixby, V. Chvatal and W. Cook, The Traveling
// Salesman Problem (2006), on hypergraph inequalities; M. Held and R. Karp, A dynamic programming approach to
// sequencing problems (1962).
#pragma once
#include <optional>

#include "graphs/tour.h"

namespace certify {
constexpr int kMostAtoms = 14;         // of a family in a file
constexpr std::size_t kMostSets = 63;  // a set that is there twice counts twice

struct Family {
  std::vector<NodeSet> sets;  // one as often as its multiplier
  int required = 0;           // as often a tour crosses them at least
  double depth = 0;           // how far the solution is from crossing them as often
};

// The length of a shortest tour of points, by their distances.
int shortest_tour(const std::vector<std::vector<int>>& distance);
// The atom of each node, from 0 on.
std::vector<int> atoms_of(const std::vector<NodeSet>& sets, int nodes);
// How often a tour crosses the sets at least. Nothing where they are too many for a file, or have too many
// atoms.
std::optional<int> required_crossings(const std::vector<NodeSet>& sets, int nodes);
}  // namespace certify
