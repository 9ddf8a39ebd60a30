// What rounds of cuts have in common, for whichever linear program they are: known cuts that its solution
// misses, handles to begin with, and the combs that are taken.
#pragma once
#include <algorithm>

#include "cuts/combs.h"
#include "running/parameters.h"

namespace certify {
// Known cuts that the solution misses, the worst first, each with its violation below 0. Those that earlier
// solutions crossed much more often than a tour has to rest for some rounds, unless that is over for all.
template <typename MayJoin>
std::vector<std::pair<double, int>> missed_in_pool(const CutPool& pool, ViolationMeter& meter,
                                                   std::vector<signed char>& rest, bool rested,
                                                   const MayJoin& may_join) {
  std::vector<std::pair<double, int>> missed;
  rest.resize(pool.size(), 0);
  for (int cut = 0; cut < pool.size(); cut++) {
    if (!may_join(cut) || (!rested && rest[cut]-- > 0)) continue;
    const double by = meter.violation(pool[cut]);
    rest[cut] = static_cast<signed char>(std::clamp(static_cast<int>(-2 * by), 0, kSeparation.longest_rest));
    if (by > kSeparation.least_in_pool) missed.emplace_back(-by, cut);
  }
  std::sort(missed.begin(), missed.end());
  return missed;
}

// The sets of the cuts that have duals.
template <typename Program>
std::vector<NodeSet> known_handles(const Program& program, const CutPool& pool) {
  std::vector<NodeSet> sets;
  for (std::size_t row = 0; row < program.cuts().size(); row++) {
    if (program.cut_dual(row) <= 1e-6) continue;
    for (const NodeSet& set : pool[program.cuts()[row]].sets) {
      if (set.size() > 1) sets.push_back(set);
    }
  }
  return sets;
}

// The combs of a round.
struct TakenCombs {
  std::vector<int> uses;  // of each node in handles
  int count = 0;

  bool is_crowded(const NodeSet& handle) const {
    return std::any_of(handle.begin(), handle.end(),
                       [&](int v) { return uses[v] >= kSeparation.most_handles_of_node; });
  }
  // Takes combs until there are as many, but few with the same nodes in their handles. `take` says whether
  // the program takes one.
  template <typename Take>
  void take_all(const CutPool& pool, const std::vector<FoundComb>& found, int most, const Take& take) {
    for (const FoundComb& comb : found) {
      if (count >= most) return;
      const NodeSet& handle = comb.sets[0];
      if (is_crowded(handle) || !pool.is_comb(comb.sets) || !take(comb)) continue;
      for (const int v : handle) uses[v]++;
      count++;
    }
  }
};
}  // namespace certify
