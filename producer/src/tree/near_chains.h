// The numbers of all leaves, each near those of a leaf beside it, which makes a short file.
//
// A file has the differences from each leaf to the next one, whichever of the two got its numbers first. So
// an anchor keeps its own numbers, and two chains begin with it: one goes through the leaves before it, and
// one through those after it. Each leaf of a chain gets numbers near those of the last one. Many leaves have
// more anchors, and where the chains of two anchors meet a whole difference is written.
//
// Chains are made at once. They share nothing, and depend on the leaves alone. So files are the same by any
// number of threads.
#pragma once
#include <vector>

#include "tree/near_program.h"

namespace certify {
// A leaf in the order of the file.
struct ListedLeaf {
  const Numbers* own;
  std::vector<Decision> decisions;
  bool done;  // its own numbers reach the target; others stay as they are
};

// Leaves by their places in the file: an anchor, and those that follow it one by one.
using Chain = std::vector<int>;
// Each of as many leaves is the anchor of two chains, or follows in one of them.
std::vector<Chain> chains_of(int leaves);

// What chains have in common.
struct NearTask {
  const Problem& problem;
  const CutPool& pool;
  const Clock& clock;
  Weight target;
  Weight grid;       // changes are multiples of it
  bool by_programs;  // linear programs find nearer numbers, of a TSP
};
// The numbers of all leaves.
std::vector<Numbers> near_numbers(const NearTask& task, const std::vector<ListedLeaf>& leaves);
}  // namespace certify
