#include "sparse/sparse_separation.h"

#include <algorithm>

#include "running/threads.h"
#include "sparse/scan_cuts.h"
#include "sparse/segment_cuts.h"
#include "sparse/sparse_parameters.h"
#include "tours/greedy.h"

namespace sparse {
using certify::FoundComb;

namespace {
int times(double part, const Graph& graph) {
  return static_cast<int>(part * static_cast<double>(graph.size()));
}
}  // namespace

void SparseSeparation::begin(Round& round) {
  meter_ = certify::ViolationMeter(program_.support());
  round.taken.assign(pool_.size(), 0);
  from_pool(round);
}

// Takes a cut that is new and violated by as much.
bool SparseSeparation::take(Round& round, int cut, double least_violation) {
  round.taken.resize(pool_.size(), 0);
  if (program_.has(cut) || round.taken[cut] != 0) return false;
  if (meter_.violation(pool_[cut]) < least_violation) return false;
  round.taken[cut] = 1;
  round.cuts.push_back(cut);
  return true;
}

// Known cuts that the solution misses, the worst first. Those that it is far from have to rest.
void SparseSeparation::from_pool(Round& round) {
  const auto may_join = [&](int cut) { return !program_.has(cut); };
  std::vector<std::pair<double, int>> missed = certify::missed_in_pool(pool_, meter_, rest_, false, may_join);
  const int most = std::max(100, times(kSparse.pooled_of_node, program_.support()));
  missed.resize(std::min(missed.size(), static_cast<std::size_t>(most)));
  for (const auto& [by, cut] : missed) take(round, cut, certify::kSeparation.least_in_pool);
}

int SparseSeparation::subtours(Round& round, const std::vector<NodeSet>& sets) {
  int count = 0;
  const std::size_t nodes = program_.support().size();
  for (const NodeSet& set : sets) {
    if (set.size() < 2 || set.size() > nodes - 2) continue;
    if (take(round, pool_.add_subtour(set), 0.01)) count++;
  }
  return count;
}

// A tour of the heavy edges of the solution, by chance. Its long links are few.
Tour SparseSeparation::guided_tour() {
  const Graph& graph = program_.support();
  potentials::Neighbours neighbours;
  for (const auto& edges : graph) {
    neighbours.starts.push_back(static_cast<int>(neighbours.nodes.size()));
    for (const certify::Edge& edge : edges) {
      neighbours.nodes.push_back(edge.to);
      neighbours.costs.push_back(-edge.value * (edge.value < 1 ? 0.5 + random_.unit() : 2));
    }
  }
  neighbours.starts.push_back(static_cast<int>(neighbours.nodes.size()));
  return potentials::greedy_tour(problem_, std::vector<double>(graph.size(), 0), neighbours);
}

// What a tour gives: runs that are crossed too little, and combs.
struct SparseSeparation::Trial {
  const Tour* tour;
  certify::Random random;
  std::vector<NodeSet> sets{};
  std::vector<FoundComb> found{};
};

certify::Effort SparseSeparation::effort_of(int level, bool far) const {
  certify::Effort effort = certify::kRootEffort;
  effort.climbs = std::max(effort.climbs, times(kSparse.climbs_of_node, program_.support())) << level;
  effort.growths += level;
  effort.most_cuts = std::max(effort.most_cuts, times(kSparse.cuts_of_node, program_.support()));
  if (far) effort.reach = certify::kFarReach;
  return effort;
}

// All tours at once. What is taken is the same for any number of threads.
void SparseSeparation::combs(Round& round, const certify::Effort& effort) {
  const Graph& graph = program_.support();
  const std::vector<NodeSet> known = certify::known_handles(program_, pool_);
  const auto take_comb = [&](const FoundComb& comb) {
    return take(round, pool_.add_comb(comb.sets), effort.least_violation);
  };
  round.combs.uses.assign(graph.size(), 0);
  std::vector<Tour> tours = tours_;
  for (int k = 0; k < kSparse.guided_tours; k++) tours.push_back(guided_tour());
  std::vector<Trial> trials;
  trials.reserve(tours.size());
  for (const Tour& tour : tours) trials.push_back({&tour, certify::Random(random_.next())});
  const auto late = [&] { return clock_.over(sparse_times().cuts); };
  certify::for_each_at_once(trials.size(), [&](std::size_t k) {
    const certify::Runs runs(graph, *trials[k].tour, effort.reach);
    trials[k].sets = runs.crossed_too_little(0.01);
    trials[k].found = certify::CombSearch(graph, pool_, runs, trials[k].random, effort).find(known, late);
  });
  for (const Trial& trial : trials) {
    subtours(round, trial.sets);
    round.combs.take_all(pool_, trial.found, effort.most_cuts, take_comb);
  }
}

int SparseSeparation::few_subtours() const {
  return std::max(10, times(kSparse.least_subtours_of_node, program_.support()));
}

// Segments of the best tour are most of them, and take little time.
int SparseSeparation::add_subtours() {
  Round round;
  begin(round);
  if (!tours_.empty()) subtours(round, segment_cuts(program_.support(), tours_[0], 0.01));
  subtours(round, small_cuts(program_.support(), 0.01));
  program_.add_cuts(round.cuts);
  return static_cast<int>(round.cuts.size());
}

void SparseSeparation::add_combs(int level, bool far) {
  Round round;
  begin(round);
  combs(round, effort_of(level, far));
  program_.add_cuts(round.cuts);
}
}  // namespace sparse
