#include "memory/run_branching.h"

#include <algorithm>
#include <cmath>

#include "memory/memory_parameters.h"

namespace certify::routes {
namespace {
class RunCandidates {
 public:
  RunCandidates(const SolvedRunCase& here, const Graph& support) : here_(here), support_(support) {}
  // Adds the set unless its crossings are too near an even number, or one of the cases is decided already.
  // First its score is how near they are to the middle of two even numbers.
  void offer(const NodeSet& set, double sooner) {
    if (!met_.insert(set).second) return;
    const double routes = crossings_of(support_, set) / 2, part = routes - std::floor(routes);
    if (part < kRunBranching.margin / 2 || part > 1 - kRunBranching.margin / 2) return;
    const int t = static_cast<int>(std::floor(routes));
    const Crossings own = here_.program.crossings_under(set);
    if (2 * t < own.low || 2 * t + 2 > own.high) return;
    list_.push_back({{set, t}, sooner - std::abs(2 * part - 1)});
  }
  void offer_pairs() {
    for (int v = 1; v < here_.instance.nodes(); v++) {
      for (const Edge& edge : support_[v]) {
        if (edge.to > v) offer({v, edge.to}, 0);
      }
    }
  }
  std::vector<BranchCandidate>& list() { return list_; }

 private:
  const SolvedRunCase& here_;
  const Graph& support_;
  std::set<NodeSet> met_;
  std::vector<BranchCandidate> list_;
};

double score_of(const std::array<double, 2>& gains) {
  const double a = std::max(1e-3, gains[0]), b = std::max(1e-3, gains[1]);
  return a * b + 1e-3 * std::min(a, b);
}

// By how much the program's value is higher in one case of a branch, after a few rounds of new runs.
double gain_below(const SolvedRunCase& here, const SetBranch& branch, bool first, double enough) {
  RunProgram program(here.program);
  Crossings own = here.program.crossings_under(branch.set);
  if (first) {
    own.high = 2 * branch.t;
  } else {
    own.low = 2 * branch.t + 2;
  }
  program.note_solution();
  program.limit(branch.set, own);
  program.rebuild();
  for (int round = 0; round < kRunBranching.rounds; round++) {
    if (!add_light_runs(here, program, 1e-2)) break;
    if (program.value() - here.program.value() < 0) break;
  }
  return std::min(enough, program.value() - here.program.value());
}
}  // namespace

bool add_light_runs(const SolvedRunCase& here, RunProgram& program, double least) {
  const RunDuals duals = program.duals();
  const MemoryWords<double> words = program.words(duals);
  const LabelSearch::Found found = here.labels.find(links_under<double>(here.instance, duals, 1), words,
                                                    {kRuns.first_labels, kRuns.few_links}, kRuns.at_once);
  if (program.add_runs(found.runs) == 0 || found.least > -least) return false;
  program.solve();
  return true;
}

std::optional<SetBranch> choose_run_branch(const SolvedRunCase& here,
                                           const std::vector<CapacityCut>& between) {
  const Graph support = here.program.support();
  RunCandidates candidates(here, support);
  candidates.offer(here.instance.customers(), 0.3);
  for (const CapacityCut& cut : between) {
    if (cut.set.size() > 2) candidates.offer(cut.set, 0.1);
  }
  candidates.offer_pairs();
  std::vector<BranchCandidate>& list = candidates.list();
  if (list.empty()) return std::nullopt;
  keep_best(list, kRunBranching.tried);
  const double enough = std::max(here.goal - here.program.value() + 1, 1.0);
  for (BranchCandidate& one : list) {
    one.score = score_of(here.program.gains(one.branch.set, one.branch.t, enough));
  }
  keep_best(list, kRunBranching.priced);
  for (BranchCandidate& one : list) {
    one.score =
        score_of({gain_below(here, one.branch, true, enough), gain_below(here, one.branch, false, enough)});
  }
  keep_best(list, 1);
  return list[0].branch;
}
}  // namespace certify::routes
