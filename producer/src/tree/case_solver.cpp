#include "tree/case_solver.h"

#include <algorithm>
#include <cmath>
#include <cstdlib>
#include <numeric>
#include <utility>

#include "running/parameters.h"
#include "tours/arc_tours.h"
#include "tours/eax.h"
#include "tree/bound_for.h"

namespace certify {
namespace {
// The weights less the duals of the solution. The lengths of all tours change alike.
Matrix less_duals(const Instance& instance, const Relaxation& relaxation) {
  Matrix costs(instance.nodes());
  for (int i = 0; i < instance.nodes(); i++) {
    for (int j = 0; j < instance.nodes(); j++) {
      const Weight duals =
          std::llround(relaxation.leaving_dual(i)) + std::llround(relaxation.entering_dual(j));
      if (i != j) costs.set_arc(i, j, instance.weights(i, j) - duals);
    }
  }
  return costs;
}

bool is_allowed(const Case& here, const CutPool& pool, int cut) {
  return !here.allowed || pool[cut].kind == CutKind::kSubtour || is_marked(*here.allowed, cut);
}

// Whether the warm start is one for this case: a basis is of all its rows.
bool is_warm(const Case& here, const CutPool& pool) {
  if (!here.warm) return false;
  const std::vector<int>& cuts = here.warm->basis.cuts;
  return std::all_of(cuts.begin(), cuts.end(), [&](int cut) { return is_allowed(here, pool, cut); });
}
}  // namespace

CaseSolver::CaseSolver(const Problem& problem, const Clock& clock)
    : problem_(problem),
      clock_(clock),
      pool_(problem.instance.nodes()),
      relaxation_(problem.instance, pool_, problem.start.tour),
      separation_(problem.costs, pool_, relaxation_, problem.start.seed),
      branching_(problem.instance.weights) {
  separation_.set_tours(problem.start.tour, problem.start.further);
}

// Takes the solution as the tour where it is a shorter one.
void CaseSolver::offer_tour() {
  const Graph& support = relaxation_.support();
  Tour tour{0};
  std::vector<char> seen(support.size(), 0);
  seen[0] = 1;
  for (int next = 0; next >= 0;) {
    const std::vector<Edge>& edges = support[tour.back()];
    if (edges.size() != 2 || edges[0].value < 1 || edges[1].value < 1) return;
    next = -1;
    for (const Edge& edge : edges) {
      if (!seen[edge.to]) next = edge.to;
    }
    if (next < 0) continue;
    seen[next] = 1;
    tour.push_back(next);
  }
  if (tour.size() < support.size()) return;
  take_tour(tour);
  if (problem_.instance.directed) take_tour(Tour(tour.rbegin(), tour.rend()));
}

void CaseSolver::take_tour(const Tour& tour) {
  const Weight length = length_of(problem_.instance.weights, tour);
  if (length >= goal_.length || !problem_.instance.allows(tour)) return;
  goal_ = {tour, length, std::min(goal_.target, length)};
  shorter_ = true;
  separation_.set_best(tour);
  note("tour");
}

// Looks once more, by the weights less the duals: the nodes that are near by these are more often neighbours
// in a shortest tour. The tour at hand isn't in the population, which would take after it.
void CaseSolver::look_for_tour(int population) {
  const Instance& instance = problem_.instance;
  const std::uint64_t seed = problem_.start.seed + 1;
  const auto late = [&] { return clock_.over(kTours.part_of_later_time); };
  if (instance.directed) {
    const Instance changed{less_duals(instance, relaxation_), instance.fixed, true};
    const ArcTours found =
        find_arc_tours(changed, kArcTours.later_runs, kArcTours.later_patience, seed, late);
    for (const Tour& tour : found.further) take_tour(tour);
    return;
  }
  std::vector<Weight> potentials(instance.nodes());
  for (int v = 0; v < instance.nodes(); v++) potentials[v] = std::llround(relaxation_.leaving_dual(v));
  const Matrix costs = with_potentials(problem_.costs, potentials);
  Eax eax(costs, instance, population, seed);
  take_tour(eax.run(late, [&](Weight) { note(""); }));
}

Rows CaseSolver::rows() const {
  Rows rows;
  for (const int cut : relaxation_.cuts()) {
    const CutKind kind = pool_[cut].kind;
    (kind == CutKind::kSubtour ? rows.subtours : kind == CutKind::kComb ? rows.combs : rows.families)++;
  }
  return rows;
}

Standing CaseSolver::standing() const {
  const Rows rows = this->rows();
  const auto reached = std::min(static_cast<Weight>(relaxation_.value()), goal_.target);
  return {goal_.length, reached, 0, 0, rows.subtours, rows.combs, rows.families};
}

bool CaseSolver::stalled(const std::vector<double>& values, const Patience& patience) const {
  if (values.size() <= patience.window) return false;
  return values.back() - values[values.size() - 1 - patience.window] < patience.least_gain * gap();
}

bool CaseSolver::add_cuts(Effort effort, int round) {
  if (far_) effort.reach = kFarReach;
  const bool added = separation_.add_cuts(effort);
  if (added && round % kProgram.rounds_of_purge == 0)
    relaxation_.purge(whole_ ? kProgram.slack_at_root : kProgram.slack_in_tree);
  return added;
}

bool CaseSolver::add_cuts(int level, int round) {
  Effort effort = whole_ ? kRootEffort : kCaseEffort;
  if (whole_) {
    effort.climbs <<= level;
    effort.growths += level;
    return add_cuts(effort, round);
  }
  effort.tighten = problem_.start.families && large_tree_;
  if (effort.tighten && gap() > kCutting.part_of_root_gap * root_gap_) {
    effort.atoms = kCutting.case_atoms;
    effort.chunks = kCutting.case_chunks;
  }
  return add_cuts(effort, round);
}

// Solves the relaxation. Whether numbers were found that reach the target.
bool CaseSolver::solve_round(int round, Numbers& numbers) {
  relaxation_.solve();
  offer_tour();
  if (whole_ && round % kProgram.rounds_of_edges == 0) relaxation_.drop_edges();
  note("");
  if (whole_) note("round");
  if (!made_->reach(relaxation_, decisions_, goal_.target, numbers)) return false;
  if (relaxation_.is_whole()) widen(numbers);
  return true;
}

// A whole solution is a tour that just reaches the target. Its numbers become ones that bear rounding: for
// them its edges are the best ones by a margin, the largest before the first that is too large.
void CaseSolver::widen(Numbers& numbers) {
  for (double margin = kCutting.least_margin; margin <= kCutting.most_margin && !clock_.over(); margin *= 4) {
    relaxation_.take_margin(margin);
    Numbers wide = made_->extract(relaxation_, 1);
    relaxation_.solve();
    if (!bound_->reaches(wide, decisions_, made_->goal(goal_.target))) return;
    numbers = std::move(wide);
  }
}

// Adds cuts while they help, and where no edge is left to branch on. Whether numbers were found that reach
// the target.
bool CaseSolver::tighten(Numbers& numbers) {
  const Patience patience = whole_ ? Patience{kCutting.root_window, kCutting.root_gain}
                                   : Patience{kCutting.case_window, kCutting.case_gain};
  std::vector<double> values;
  int level = 0;
  for (int round = 1;; round++) {
    if (solve_round(round, numbers)) return true;
    if (clock_.over()) return false;
    values.push_back(relaxation_.value());
    const bool stall = stalled(values, patience) && !relaxation_.is_whole();
    if (!stall && add_cuts(level, round)) continue;
    if (whole_ && !far_ && has_large_gap()) {
      far_ = true;
      values.clear();
      if (add_cuts(level, round)) continue;
    }
    if (!whole_ || level == kCutting.levels || (problem_.start.families && has_large_gap())) return false;
    level++;
    if (stall) values.clear();
    if (stall && !add_cuts(level, round) && level == kCutting.levels) return false;
  }
}

// The same with families. Rounds that met many subtours aren't counted.
bool CaseSolver::tighten_by_families(const Effort& effort, const Patience& patience, Numbers& numbers) {
  std::vector<double> values;
  int misses = 0;
  for (int round = 1; misses < kCutting.most_misses; round++) {
    if (solve_round(round, numbers)) return true;
    if (clock_.over()) return false;
    if (!values.empty() && (misses > 0 || !separation_.was_whole())) values.pop_back();
    values.push_back(relaxation_.value());
    if (stalled(values, patience)) return false;
    misses = add_cuts(effort, round) ? 0 : misses + 1;
  }
  return false;
}

bool CaseSolver::is_large(double gap, double part_of_length) const {
  return gap >= part_of_length * std::abs(static_cast<double>(goal_.length));
}

// Whether the root is worth families: where the gap is large, or the tree by what the best branch gains. That
// is a rough guess, so a tree that isn't very large has to have a gap that is fair too.
bool CaseSolver::wants_families() {
  if (!problem_.start.families || clock_.over()) return false;
  if (has_large_gap()) return true;
  choice_ = branching_.choose(relaxation_, static_cast<double>(goal_.target));
  const double leaves = branching_.leaves();
  large_tree_ = leaves >= kCutting.large_tree;
  return leaves >= kCutting.very_large_tree ||
         (leaves >= kCutting.fair_tree && problem_.instance.nodes() >= kCutting.fair_nodes &&
          is_large(gap(), kCutting.fair_gap));
}

// A gap that stays large may be the tour's too.
bool CaseSolver::settle_by_families(Numbers& numbers) {
  const bool large_gap = has_large_gap();
  const bool very_large = large_gap || branching_.leaves() >= kCutting.very_large_tree;
  const Patience patience = very_large ? Patience{kCutting.long_family_window, kCutting.long_family_gain}
                                       : Patience{kCutting.short_family_window, kCutting.short_family_gain};
  choice_.reset();
  branching_.forget();
  if (tighten_by_families(large_gap ? kLightFamilyEffort : kFamilyEffort, patience, numbers)) return true;
  if (problem_.start.named || clock_.over() || !has_large_gap()) return false;
  const Weight before = goal_.length;
  look_for_tour(kTours.third_population);
  return goal_.length < before && solve_round(1, numbers);
}

// With one more search for a tour where a gap is left.
bool CaseSolver::settle_whole(Numbers& numbers) {
  if (tighten(numbers)) return true;
  if (!problem_.start.named && !clock_.over()) {
    const Weight before = goal_.length;
    look_for_tour(kTours.second_population);
    if (goal_.length < before && tighten(numbers)) return true;
  }
  if (!wants_families()) return false;
  large_tree_ = true;
  return settle_by_families(numbers);
}

bool CaseSolver::settle(Numbers& numbers) { return whole_ ? settle_whole(numbers) : tighten(numbers); }

// Without a basis the program has the same edges and cuts, as far as they are allowed.
void CaseSolver::load_cold(const Case& here) {
  relaxation_.add_edges(problem_.edges);
  if (here.warm) {
    for (const auto* edges : {&here.warm->basis.edges, &here.warm->basis.basic, &here.warm->basis.at_one})
      relaxation_.add_edges(*edges);
  }
  std::vector<int> cuts = here.warm ? here.warm->basis.cuts : here.rows;
  std::erase_if(cuts, [&](int cut) { return !is_allowed(here, pool_, cut); });
  relaxation_.add_cuts(cuts);
}

// Forgets the case before, and brings the linear program to this one.
void CaseSolver::load(const Case& here) {
  pool_.shrink_to(known_);
  for (const auto& cut : here.cuts) pool_.add(cut);
  known_ = here.known;
  goal_ = here.goal;
  shorter_ = false;
  bound_ = bound_for(problem_.instance, pool_, problem_.scale);
  bound_->add_likely(problem_.edges);
  made_ = std::make_unique<Leaves>(*bound_, pool_, problem_.instance.directed, here.shift);
  decisions_ = here.decisions;
  whole_ = here.whole;
  large_tree_ = here.large_tree;
  root_gap_ = here.root_gap;
  far_ = !whole_ && is_large(root_gap_, kCutting.large_gap);
  choice_.reset();
  branching_.set_history(here.history ? *here.history : History{});
  separation_.begin(here.warm ? here.warm->experience : Experience{}, here.seed, here.allowed);
  separation_.set_best(goal_.tour);
  relaxation_.reset();
  if (is_warm(here, pool_)) {
    relaxation_.restore(here.warm->basis);
  } else {
    load_cold(here);
  }
  for (const Decision& decision : decisions_) relaxation_.decide(decision);
}

Outcome CaseSolver::solve(const Case& here, const Note& note) {
  load(here);
  note_ = note;
  if (!is_warm(here, pool_)) {
    relaxation_.solve();
    while (!clock_.over() && separation_.add_subtours()) {
      relaxation_.solve();
      this->note("");
    }
  }
  Outcome outcome;
  outcome.done = settle(outcome.numbers);
  if (!outcome.done) {
    improve(here, outcome);
    if (!clock_.over()) branch(outcome);
  }
  outcome.cuts = pool_.part(known_, pool_.size());
  outcome.first = known_;
  if (shorter_) outcome.tour = goal_.tour;
  outcome.history = branching_.history();
  outcome.gap = gap();
  outcome.large_tree = large_tree_;
  outcome.shift = made_->shift();
  outcome.rows = rows();
  note_ = nullptr;
  return outcome;
}

// Takes the numbers of the last solution where they are better than those from above.
void CaseSolver::improve(const Case& here, Outcome& outcome) {
  outcome.numbers = made_->extract(relaxation_, 1);
  outcome.value = bound_->value(outcome.numbers, decisions_);
  if (here.numbers.potentials.empty()) return;
  const Value above = std::max(here.value, bound_->value(here.numbers, decisions_));
  if (above < outcome.value) return;
  outcome.numbers = here.numbers;
  outcome.value = above;
}

void CaseSolver::branch(Outcome& outcome) {
  outcome.pair = choice_ ? choice_ : branching_.choose(relaxation_, static_cast<double>(goal_.target));
  if (!outcome.pair) return;
  outcome.warm = std::make_shared<const WarmStart>(WarmStart{relaxation_.basis(), separation_.experience()});
}
}  // namespace certify
