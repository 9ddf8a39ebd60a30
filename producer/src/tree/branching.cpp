#include "tree/branching.h"

#include <algorithm>

#include "running/parameters.h"

namespace certify {
// A candidate with what it gained a short time ago.
Branching::Candidate Branching::candidate_of(const Relaxation& relaxation, int column) const {
  Candidate candidate{column};
  const auto found = history_.known.find(relaxation.edge(column));
  if (found != history_.known.end() && history_.choices - found->second.when <= kBranching.fresh_choices) {
    candidate.gains = found->second.gains;
  }
  return candidate;
}

// Columns near a half and with long edges, and some that were good before.
std::vector<Branching::Candidate> Branching::candidates(const Relaxation& relaxation, double target) const {
  const double average = std::max(1.0, target / weights_.nodes());
  std::vector<std::pair<double, int>> sorted, known;
  for (int column = 0; column < relaxation.columns(); column++) {
    const double value = relaxation.solution(column);
    if (value <= 0.02 || value >= 0.98) continue;
    const auto [i, j] = relaxation.edge(column);
    const double length = std::min(3.0, static_cast<double>(weights_(i, j)) / average);
    sorted.emplace_back(-(std::min(value, 1 - value) + 0.05 * length), column);
  }
  std::sort(sorted.begin(), sorted.end());
  std::vector<Candidate> candidates;
  for (const auto& [score, column] : sorted) {
    const auto found = history_.known.find(relaxation.edge(column));
    if (candidates.size() < kBranching.candidates) {
      candidates.push_back(candidate_of(relaxation, column));
    } else if (found != history_.known.end()) {
      known.emplace_back(-found->second.score, column);
    }
  }
  std::sort(known.begin(), known.end());
  for (std::size_t k = 0; k < std::min(known.size(), kBranching.candidates / 2); k++) {
    candidates.push_back(candidate_of(relaxation, known[k].second));
  }
  return candidates;
}

// What a value gains, as a part of the gap.
double Branching::part(const Candidate& candidate, int value, const Trial& trial) {
  return std::clamp(candidate.gains[value].value_or(0) / trial.gap, kBranching.least_part,
                    kBranching.most_part);
}

// Tries the first or the second values of candidates, and scores them.
void Branching::try_values(const Relaxation& relaxation, const std::vector<Candidate*>& candidates,
                           bool second, const Trial& trial) {
  std::vector<Relaxation::Fixing> fixings;
  std::vector<double*> places;
  for (Candidate* candidate : candidates) {
    const int value = second ? 1 - candidate->first : candidate->first;
    std::optional<double>& gain = candidate->gains[value];
    if (gain) continue;
    fixings.push_back({candidate->column, value});
    places.push_back(&gain.emplace(0));
  }
  const std::vector<double> gains = relaxation.gains(fixings, trial.iterations);
  for (std::size_t k = 0; k < gains.size(); k++) *places[k] = gains[k];
  for (Candidate* candidate : candidates) {
    const double first = part(*candidate, candidate->first, trial);
    const double other = second ? part(*candidate, 1 - candidate->first, trial) : kBranching.most_part;
    candidate->score = first * other;
    if (second && other < first) candidate->first = 1 - candidate->first;
  }
}

// Scores candidates by the product of what both values gain, and sorts them, the best first. The second value
// isn't tried where the candidate can't be among the best.
void Branching::score(const Relaxation& relaxation, std::vector<Candidate>& candidates, const Trial& trial) {
  std::vector<Candidate*> order;
  order.reserve(candidates.size());
  for (Candidate& candidate : candidates) order.push_back(&candidate);
  try_values(relaxation, order, false, trial);
  std::stable_sort(order.begin(), order.end(), [](auto* a, auto* b) { return a->score > b->score; });
  const std::size_t wanted = std::min(trial.wanted, order.size());
  const std::vector<Candidate*> best(order.begin(), order.begin() + static_cast<std::ptrdiff_t>(wanted));
  try_values(relaxation, best, true, trial);
  double least = kBranching.most_part * kBranching.most_part;
  for (const Candidate* candidate : best) least = std::min(least, candidate->score);
  order.erase(order.begin(), order.begin() + static_cast<std::ptrdiff_t>(wanted));
  std::erase_if(order, [&](const Candidate* candidate) { return candidate->score <= least; });
  try_values(relaxation, order, true, trial);
  std::sort(candidates.begin(), candidates.end(), [](const Candidate& a, const Candidate& b) {
    return a.score > b.score || (a.score == b.score && a.column < b.column);
  });
}

// By hundredths of the gap.
double Branching::leaves() const {
  std::vector<double> leaves(101, 1);
  for (int gap = 1; gap <= 100; gap++) {
    double sum = 0;
    for (const double gain : gained_)
      sum += leaves[std::max(0, gap - std::max(1, static_cast<int>(gain * 100)))];
    leaves[gap] = std::min(1e9, sum);
  }
  return leaves[100];
}

std::optional<Pair> Branching::choose(Relaxation& relaxation, double target) {
  relaxation.purge(kProgram.slack_at_branch);
  relaxation.solve();
  const double gap = std::max(target - relaxation.value(), 1e-6);
  relaxation.drop_edges();
  history_.choices++;
  std::vector<Candidate> tried = candidates(relaxation, target);
  score(relaxation, tried, {kBranching.few_iterations, gap, kBranching.finalists});
  for (const Candidate& candidate : tried) {
    const auto found = history_.known.emplace(relaxation.edge(candidate.column), Known{}).first;
    if (found->second.gains != candidate.gains)
      found->second = {candidate.gains, candidate.score, history_.choices};
  }
  tried.resize(std::min(tried.size(), kBranching.finalists));
  if (tried.empty()) return std::nullopt;
  for (Candidate& candidate : tried) candidate.gains = {};
  score(relaxation, tried, {kBranching.many_iterations, gap, 1});
  for (const int value : {0, 1}) gained_[value] = tried[0].gains[value].value_or(0) / gap;
  return relaxation.edge(tried[0].column);
}
}  // namespace certify
