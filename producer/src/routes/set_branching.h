// Strong branching on sets that a solution crosses between two even numbers of times.
//
// They are pairs, all customers, and sets that the search for cuts met. Those that promise most by the
// program alone are tried once more with a few rounds of new walks. Source: J. Lysgaard, A. Letchford and R.
// Eglese, A new branch-and-cut algorithm for the capacitated vehicle routing problem, Mathematical
// Programming 100 (2004).
#pragma once
#include "routes/capacity_cuts.h"
#include "routes/column_generation.h"

namespace certify::routes {
// First the plans that cross the set at most 2 t times, then those that cross it at least 2 t + 2 times.
struct SetBranch {
  NodeSet set;
  int t;
};

// A branch that may be taken. More is sooner.
struct BranchCandidate {
  SetBranch branch;
  double score;
};
// The best ones, the first of which is the best one of all.
void keep_best(std::vector<BranchCandidate>& list, std::size_t count);
// How often a solution crosses a set.
double crossings_of(const Graph& support, const NodeSet& set);

// A case whose program is solved, and the value that is enough.
struct SolvedCase {
  const CvrpInstance& instance;
  const Loads& loads;
  const WalkProgram& program;
  const std::vector<Limit>& limits;
  double goal;
};

// Of those sets, of pairs and of all customers. Nothing where the solution crosses each such set an even
// number of times.
std::optional<SetBranch> choose_branch(const SolvedCase& here, const std::vector<CapacityCut>& between);
}  // namespace certify::routes
