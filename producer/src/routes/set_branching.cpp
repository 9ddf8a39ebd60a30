#include "routes/set_branching.h"

#include <algorithm>
#include <cmath>

#include "routes/route_parameters.h"
#include "running/threads.h"

namespace certify::routes {
namespace {
// Sets to try, each once.
class Candidates {
 public:
  Candidates(const SolvedCase& here, const Graph& support)
      : instance_(here.instance),
        support_(support),
        limited_(limited_crossings(here.instance, here.limits)) {}
  // Adds the set unless its crossings are within the margin of an even number, or one of the two cases is
  // decided already: a solution may break decisions.
  void offer(const NodeSet& set, double margin) {
    if (!met_.insert(set).second) return;
    const double routes = crossings_of(support_, set) / 2, part = routes - std::floor(routes);
    if (part <= margin || part >= 1 - margin) return;
    const int t = static_cast<int>(std::floor(routes));
    const Crossings own = crossings_under(limited_, instance_, set);
    if (2 * t >= own.low && 2 * t + 2 <= own.high) list_.push_back({{set, t}, 0});
  }
  // Pairs by how near the use of their link is to a half.
  void offer_pairs(std::size_t most, double margin) {
    std::vector<std::pair<double, Pair>> pairs;
    for (int v = 1; v < instance_.nodes(); v++) {
      for (const Edge& edge : support_[v]) {
        const double part = edge.value - std::floor(edge.value);
        if (edge.to > v && part > margin && part < 1 - margin)
          pairs.emplace_back(std::abs(part - 0.5), Pair(v, edge.to));
      }
    }
    std::sort(pairs.begin(), pairs.end());
    for (std::size_t k = 0; k < std::min(most, pairs.size()); k++) {
      offer({pairs[k].second.first, pairs[k].second.second}, margin);
    }
  }
  void offer_sets(std::vector<CapacityCut> sets, std::size_t most, double margin) {
    std::stable_sort(sets.begin(), sets.end(), [](const CapacityCut& a, const CapacityCut& b) {
      return std::abs(a.slack - 1) < std::abs(b.slack - 1);
    });
    const std::size_t end = list_.size() + most;
    for (const CapacityCut& cut : sets) {
      if (list_.size() >= end) return;
      if (cut.set.size() > 2) offer(cut.set, margin);
    }
  }
  std::vector<BranchCandidate>& list() { return list_; }

 private:
  const CvrpInstance& instance_;
  const Graph& support_;
  const std::map<NodeSet, Crossings> limited_;
  std::set<NodeSet> met_;
  std::vector<BranchCandidate> list_;
};

// What both cases of a branch gain, in parts of what is missing.
double score_of(const std::array<double, 2>& gains, double gap) {
  return std::clamp(gains[0] / gap, 1e-3, 1.0) * std::clamp(gains[1] / gap, 1e-3, 1.0);
}

// The program's value in one case of a branch, after a few rounds of new walks.
double value_below(const SolvedCase& here, const SetBranch& branch, bool first) {
  std::vector<Limit> limits = here.limits;
  limits.push_back({branch.set, first, branch.t});
  WalkProgram program(here.program);
  program.limit(branch.set, limited_crossings(here.instance, limits).at(branch.set));
  return ColumnGeneration(here.instance, here.loads, program, limits).estimate(kSetBranching.rounds);
}
}  // namespace

void keep_best(std::vector<BranchCandidate>& list, std::size_t count) {
  std::stable_sort(list.begin(), list.end(),
                   [](const BranchCandidate& a, const BranchCandidate& b) { return a.score > b.score; });
  if (list.size() > count) list.erase(list.begin() + static_cast<std::ptrdiff_t>(count), list.end());
}

double crossings_of(const Graph& support, const NodeSet& set) {
  const std::vector<char> inside = marks_of(set, static_cast<int>(support.size()));
  double sum = 0;
  for (const int v : set) {
    for (const Edge& edge : support[v]) sum += inside[edge.to] != 0 ? 0 : edge.value;
  }
  return sum;
}

std::optional<SetBranch> choose_branch(const SolvedCase& here, const std::vector<CapacityCut>& between) {
  const Graph support = here.program.support();
  Candidates candidates(here, support);
  candidates.offer(here.instance.customers(), kSetBranching.margin);
  candidates.offer_pairs(kSetBranching.pairs, kSetBranching.margin);
  candidates.offer_sets(between, kSetBranching.sets, kSetBranching.margin);
  std::vector<BranchCandidate>& list = candidates.list();
  if (list.empty()) candidates.offer_pairs(kSetBranching.pairs, kSetBranching.least_margin);
  if (list.empty()) return std::nullopt;
  if (list.size() == 1) return list[0].branch;
  const double value = here.program.value(), gap = std::max(here.goal - value, 1e-3);
  for_each_at_once(list.size(), [&](std::size_t k) {
    const SetBranch& branch = list[k].branch;
    list[k].score = score_of(here.program.gains(branch.set, branch.t, kSetBranching.iterations), gap);
  });
  keep_best(list, kSetBranching.priced);
  std::vector<std::array<double, 2>> gains(list.size());
  for_each_at_once(2 * list.size(), [&](std::size_t k) {
    gains[k / 2][k % 2] = value_below(here, list[k / 2].branch, k % 2 == 0) - value;
  });
  for (std::size_t k = 0; k < list.size(); k++) list[k].score = score_of(gains[k], gap);
  keep_best(list, 1);
  return list[0].branch;
}
}  // namespace certify::routes
