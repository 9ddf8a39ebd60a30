#include "tree/separation.h"

#include <algorithm>
#include <optional>

#include "cuts/subtours.h"
#include "cuts/tightening.h"
#include "running/parameters.h"
#include "running/threads.h"
#include "tours/local_search.h"

namespace certify {
Separation::Separation(const Matrix& costs, CutPool& pool, Relaxation& relaxation, std::uint64_t seed)
    : pool_(pool),
      relaxation_(relaxation),
      random_(seed),
      costs_(costs),
      near_(nearest(costs, kSeparation.near)),
      scratch_(costs.nodes(), 0) {}

void Separation::set_tours(const Tour& best, const std::vector<Tour>& further) {
  best_ = best;
  further_ = further;
}

void Separation::begin(Experience experience, std::uint64_t seed, std::shared_ptr<const Marks> allowed) {
  experience_ = std::move(experience);
  allowed_ = std::move(allowed);
  random_ = Random(seed);
  whole_ = true;
}

// How many known cuts the solution misses.
int Separation::from_pool(Round& round) {
  const auto may_join = [&](int cut) { return !relaxation_.has(cut) && is_allowed(cut); };
  std::vector<std::pair<double, int>> missed =
      missed_in_pool(pool_, meter_, experience_.rest, false, may_join);
  if (missed.empty()) missed = missed_in_pool(pool_, meter_, experience_.rest, true, may_join);
  for (std::size_t k = 0; k < std::min(missed.size(), kSeparation.most_from_pool); k++)
    round.cuts.push_back(missed[k].second);
  return static_cast<int>(missed.size());
}

int Separation::subtours(Round& round) {
  int count = 0;
  const std::size_t nodes = scratch_.size();
  for (const NodeSet& set : crossed_too_little(relaxation_.support(), 0.01)) {
    if (set.size() < 2 || set.size() > nodes - 2) continue;
    const int cut = pool_.add_subtour(set);
    if (relaxation_.has(cut) || meter_.violation(pool_[cut]) <= 0.005) continue;
    round.cuts.push_back(cut);
    count++;
  }
  return count;
}

// A tour along the edges of the solution, by chance.
Tour Separation::guided_tour(Random& random) const {
  const Graph& support = relaxation_.support();
  const double average =
      static_cast<double>(std::abs(length_of(costs_, best_))) / static_cast<double>(best_.size());
  LoweredCosts costs(costs_);
  Neighbours near = near_;
  for (int v = 0; v < costs.nodes(); v++) {
    for (const Edge& edge : support[v]) {
      if (std::find(near[v].begin(), near[v].end(), edge.to) == near[v].end()) near[v].push_back(edge.to);
      if (edge.to < v) continue;
      const double by = average * kSeparation.pull * edge.value * (0.5 + random.unit());
      costs.lower(v, edge.to, static_cast<Weight>(by));
    }
  }
  for (int v = 0; v < costs.nodes(); v++) {
    std::stable_sort(near[v].begin(), near[v].end(), [&](int a, int b) { return costs(v, a) < costs(v, b); });
  }
  Tour tour = further_.empty() || random.below(2) == 1 ? best_ : further_[random.below(further_.size())];
  LocalSearch(costs, near).improve(tour);
  return tour;
}

Tour Separation::tour_for(int k, Random& random) const {
  if (k == 0) return best_;
  return k % 2 == 1 || further_.empty() ? guided_tour(random) : further_[random.below(further_.size())];
}

// Takes a cut that is new and violated by as much.
bool Separation::take(Round& round, int cut, double least_violation) {
  if (relaxation_.has(cut) || std::find(round.cuts.begin(), round.cuts.end(), cut) != round.cuts.end())
    return false;
  if (meter_.violation(pool_[cut]) < least_violation) return false;
  round.cuts.push_back(cut);
  return true;
}

void Separation::take_combs(Round& round, const std::vector<FoundComb>& found, const Effort& effort) {
  round.combs.take_all(pool_, found, effort.most_cuts, [&](const FoundComb& comb) {
    return take(round, pool_.add_comb(comb.sets), effort.least_violation);
  });
}

// What a tour gives: runs that are crossed too little, and combs.
struct Separation::CombTrial {
  int number;
  Random random;
  std::vector<NodeSet> sets{};
  std::vector<FoundComb> found{};
};

void Separation::look(CombTrial& trial, const std::vector<NodeSet>& known, const Effort& effort) const {
  const Runs runs(relaxation_.support(), tour_for(trial.number, trial.random), effort.reach);
  trial.sets = runs.crossed_too_little(0.01);
  trial.found = CombSearch(relaxation_.support(), pool_, runs, trial.random, effort).find(known);
}

// As many tours at once as there are threads. What is taken is the same for any number of them.
void Separation::combs(Round& round, const Effort& effort) {
  const std::vector<NodeSet> known = known_handles(relaxation_, pool_);
  round.combs.uses.assign(scratch_.size(), 0);
  std::vector<CombTrial> trials;
  for (int k = 0; k <= effort.further_tours; k++) trials.push_back({k, Random(random_.next())});
  for (std::size_t first = 0; first < trials.size(); first += threads()) {
    const std::size_t count = std::min(threads(), trials.size() - first);
    for_each_at_once(count, [&](std::size_t k) { look(trials[first + k], known, effort); });
    for (std::size_t k = first; k < first + count; k++) {
      if (k > 0 && round.combs.count > effort.most_cuts / 2) return;
      for (const NodeSet& set : trials[k].sets) {
        const int known_cuts = pool_.size(), cut = pool_.add_subtour(set);
        if (cut == known_cuts) round.cuts.push_back(cut);
      }
      take_combs(round, trials[k].found, effort);
    }
  }
}

// Cuts of the linear program, with nodes in other atoms.
void Separation::tighten_cuts(Round& round, const Effort& effort) {
  std::vector<int> cuts;
  for (const int cut : relaxation_.cuts()) {
    if (pool_[cut].kind != CutKind::kSubtour && meter_.violation(pool_[cut]) >= -1) cuts.push_back(cut);
  }
  std::vector<std::optional<std::vector<NodeSet>>> moved(cuts.size());
  for_each_at_once(cuts.size(),
                   [&](std::size_t k) { moved[k] = tightened(pool_[cuts[k]], relaxation_.support()); });
  for (std::size_t k = 0; k < cuts.size(); k++) {
    const std::shared_ptr<const Cut> cut = pool_.part(cuts[k], cuts[k] + 1)[0];
    if (!moved[k] || (cut->kind == CutKind::kComb && !pool_.is_comb(*moved[k]))) continue;
    take(
        round,
        cut->kind == CutKind::kComb ? pool_.add_comb(*moved[k]) : pool_.add_family(*moved[k], cut->crossings),
        effort.least_violation);
  }
}

// How much the solution crosses a set.
double Separation::crossed(const NodeSet& set) {
  double sum = 0;
  for (const int v : set) scratch_[v] = 1;
  for (const int v : set) {
    for (const Edge& edge : relaxation_.support()[v]) sum += scratch_[edge.to] ? 0 : edge.value;
  }
  for (const int v : set) scratch_[v] = 0;
  return sum;
}

// Sets of cuts with duals that the solution crosses twice.
std::vector<const NodeSet*> Separation::tight_sets(std::size_t largest) {
  std::vector<const NodeSet*> tight;
  for (std::size_t row = 0; row < relaxation_.cuts().size(); row++) {
    if (relaxation_.cut_dual(row) <= 1e-7) continue;
    for (const NodeSet& set : pool_[relaxation_.cuts()[row]].sets) {
      if (set.size() >= 3 && set.size() <= largest && crossed(set) < 2 + 1e-5) tight.push_back(&set);
    }
  }
  return tight;
}

void Separation::families(Round& round, const Effort& effort) {
  const std::vector<const NodeSet*> tight = tight_sets(effort.reach.largest_sets[3]);
  QuotientSearch search(relaxation_.support(), tight, best_, random_, experience_.chunks, effort);
  const std::vector<Family> found = search.find();
  std::vector<int> uses(scratch_.size(), 0);
  int count = 0;
  for (const Family& family : found) {
    if (count >= effort.most_cuts) return;
    const bool crowded = std::any_of(family.sets.begin(), family.sets.end(), [&](const NodeSet& set) {
      return std::any_of(set.begin(), set.end(),
                         [&](int v) { return uses[v] >= kSeparation.most_sets_of_node; });
    });
    if (crowded || !take(round, pool_.add_family(family.sets, family.required), effort.least_violation))
      continue;
    count++;
    for (const NodeSet& set : family.sets) {
      for (const int v : set) uses[v]++;
    }
  }
}

bool Separation::add_subtours() {
  Round round;
  meter_ = ViolationMeter(relaxation_.support());
  from_pool(round);
  subtours(round);
  relaxation_.add_cuts(round.cuts);
  return !round.cuts.empty();
}

bool Separation::add_cuts(const Effort& effort) {
  Round round;
  meter_ = ViolationMeter(relaxation_.support());
  const int pooled = from_pool(round);
  const int sets = subtours(round);
  // the runs of a tour have three nodes outside
  whole_ = sets < kSeparation.many_subtours && pooled < kSeparation.many_from_pool;
  if (whole_ && !allowed_ && scratch_.size() >= 6) {
    if (effort.tighten) tighten_cuts(round, effort);
    combs(round, effort);
    if (effort.atoms > 0) families(round, effort);
  }
  relaxation_.add_cuts(round.cuts);
  return !round.cuts.empty();
}
}  // namespace certify
