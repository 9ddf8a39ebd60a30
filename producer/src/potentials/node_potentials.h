// Files of TYPE POTENTIALS: whole numbers at a scale. docs/format.md says what is in them.
#pragma once
#include <string>

#include "spanning/exact_tree.h"

namespace potentials {
using certify::Weight;

// Of a TSP the numbers of its nodes, in the order of the file, and a multiplier for each fixed edge.
struct NodePotentials {
  struct Multiplier {
    int a, b;
    Weight number;
  };
  Weight scale = 1;
  std::vector<Weight> numbers;
  std::vector<Multiplier> multipliers;
};

// At the finest scale whose numbers keep the limits. The multipliers make each fixed edge lighter than all
// others, so that each least 1-tree has them all.
NodePotentials rounded(const Problem& problem, std::vector<double> numbers);
// The bound of these whole numbers by the program's own reckoning, rounded up.
Weight bound_of(const Problem& problem, const NodePotentials& potentials, const std::vector<Edge>& edges);
void write_potentials(const std::string& path, const NodePotentials& potentials);

// Of an ATSP the duals of leaving and entering each node.
void write_duals(const std::string& path, const std::vector<Weight>& leaving,
                 const std::vector<Weight>& entering);
}  // namespace potentials
