#include "memory/run_case.h"

#include <algorithm>
#include <cmath>
#include <utility>

#include "memory/memory_growth.h"
#include "memory/run_diving.h"
#include "routes/radial_duals.h"
#include "routes/route_parameters.h"

namespace certify::routes {
// A case at hand.
struct RunCaseSolver::Rounds {
  RunProgram& program;
  CapacityCuts cuts;
  const std::vector<Limit>& limits;
  RouteGoal goal;
  const Note& note;
  bool whole;
  int bits;
  bool grows;
  Best best{};
  bool shorter = false;  // the goal's plan is a new one
  bool too_many_labels = false;
  std::size_t states = 0;  // of the whole problem by the best duals
  double margin = kRunLeaves.margin;
  double goal_value() const { return static_cast<double>(goal.target) - 1 + margin; }
};

RunCaseSolver::RunCaseSolver(const RouteProblem& problem, const Clock& clock)
    : problem_(problem),
      clock_(clock),
      labels_(problem.instance, problem.loads),
      bound_(problem.instance, problem.loads, problem.scale) {}

void RunCaseSolver::load(const RunCase& here, RunProgram& program) const {
  for (const NodeSet& set : here.start->sets) program.add_set(set);
  for (const auto& [set, crossings] : limited_crossings(problem_.instance, here.limits)) {
    program.limit(set, crossings);
  }
  program.add_runs(here.start->runs);
  program.add_runs(here.goal.routes);
}

// With few labels, more, or all.
LabelSearch::Found RunCaseSolver::price(const RunProgram& program, const RunDuals& duals, int turn) {
  const Links<double> links = links_under<double>(problem_.instance, duals, 1);
  const MemoryWords<double> words = program.words(duals);
  const LabelSearch::Effort efforts[] = {
      {kRuns.first_labels, kRuns.few_links}, {kRuns.more_labels, 0}, {0, 0}};
  return labels_.find(links, words, efforts[turn], turn == 2 ? kRuns.at_once_of_all : kRuns.at_once);
}

// The multiplier of all customers takes what the least run weighs.
void RunCaseSolver::take_bound(Rounds& rounds, RunDuals duals, double least) const {
  duals.multipliers[problem_.instance.customers()] += least / 2;
  const double bound = rounds.program.back_of(duals);
  if (bound <= rounds.best.bound) return;
  Memory memory = rounds.program.memory().with_rows_of(duals.rows);
  rounds.best = {bound, std::move(duals), std::move(memory)};
}

// Runs join the program until none weighs less than 0. True where the bound is above the goal.
bool RunCaseSolver::generate(Rounds& rounds) {
  for (int turn = 0;;) {
    const RunDuals duals = rounds.program.duals();
    const LabelSearch::Found found = price(rounds.program, duals, turn);
    const int added = rounds.program.add_runs(found.runs);
    if (turn == 2) {
      rounds.too_many_labels = !found.whole;
      if (!found.whole) return false;
      take_bound(rounds, duals, found.least);
      if (rounds.best.bound > rounds.goal_value()) return true;
      const bool near = rounds.program.value() - rounds.best.bound < kRunLeaves.tolerance;
      rounds.program.solve();
      if (added == 0 || near || found.least > -kRuns.exact) return false;
    } else {
      if (added == 0 || found.least > -kRuns.enough) turn++;
      if (added > 0) rounds.program.solve();
    }
    if (clock_.over(kRouteTree.part_of_time)) return false;
  }
}

void RunCaseSolver::take_plan(Rounds& rounds, const std::optional<Routes>& plan) const {
  if (!plan) return;
  const Weight length = length_of(problem_.instance, *plan);
  if (length >= rounds.goal.length) return;
  rounds.goal = {*plan, length, std::min(rounds.goal.target, length)};
  rounds.shorter = true;
}

// A dive, from a solution that isn't too far below the goal.
void RunCaseSolver::look_for_plan(Rounds& rounds) {
  const auto late = [&] { return clock_.over(kRouteTree.part_of_time); };
  take_plan(rounds, dive(solved(rounds), rounds.goal.length, late));
}

SolvedRunCase RunCaseSolver::solved(const Rounds& rounds) {
  return {problem_.instance, problem_.loads, rounds.program, labels_,
          static_cast<double>(rounds.goal.target) - 1};
}

// Sets first; where these are few, memory and rows, unless these stay as they are. How many of all.
int RunCaseSolver::add_cuts(Rounds& rounds) {
  std::vector<NodeSet> sets;
  const Graph support = rounds.program.support();
  for (const CapacityCut& cut : rounds.cuts.violated(support, true, kCapacityCuts.least_violation)) {
    if (sets.size() >= kCapacityCuts.most_at_once) break;
    if (!rounds.program.has_set(cut.set)) sets.push_back(cut.set);
  }
  int more = 0;
  if (rounds.grows && static_cast<int>(sets.size()) < kSubsetRows.many_sets) {
    std::vector<UsedRun> used;
    for (const auto& [part, run] : rounds.program.used()) used.push_back({part, rounds.program.runs()[run]});
    MemoryGrowth growth(rounds.program.memory(), std::move(used), rounds.bits);
    more = growth.forbid_cycles();
    if (more <= kSubsetRows.much_memory) more += growth.add_rows();
  }
  for (const NodeSet& set : sets) rounds.program.add_set(set);
  return more + static_cast<int>(sets.size());
}

// Runs and cuts in turn, until the bound is above the goal or the program's value stalls.
void RunCaseSolver::cut(Rounds& rounds) {
  const RunRounds& plan = rounds.whole ? kRunRoot : kRunTree;
  std::vector<double> past;
  for (int round = 1;; round++) {
    const bool reached = generate(rounds);
    take_plan(rounds, rounds.program.plan());
    if (rounds.note) {
      rounds.note(rounds.goal.length, static_cast<Weight>(std::ceil(rounds.best.bound - 1e-6)),
                  rounds.program);
    }
    if (reached || rounds.best.bound > rounds.goal_value() || rounds.too_many_labels ||
        clock_.over(kRouteTree.part_of_time)) {
      return;
    }
    past.push_back(rounds.program.value());
    const bool stalls = past.size() > plan.window && past.back() - past[past.size() - 1 - plan.window] <
                                                         plan.least_gain * std::abs(past.back());
    if (stalls || round >= plan.most) return;
    rounds.program.note_solution();
    if (add_cuts(rounds) == 0) return;
    const int slack = rounds.grows ? kSubsetRows.slack_solutions - 1 : plan.most;
    rounds.program.drop_slack(kCapacityCuts.slack_solutions / 2, slack);
    rounds.program.drop_runs();
    rounds.program.rebuild();
  }
}

// The best duals as whole numbers. Whether these reach the target.
bool RunCaseSolver::settle(Rounds& rounds, RunOutcome& outcome) {
  const Value aim = value_to_reach(rounds.goal.target, problem_.scale);
  auto made =
      bound_.rounded(rounds.best.duals, rounds.best.memory, rounds.limits, 1, aim, kMemory.most_states);
  if (!made || made->value < aim) return false;
  outcome.value = made->value;
  outcome.leaf.numbers = std::move(made->numbers);
  outcome.leaf.memory = rounds.best.memory.with_rows_of(outcome.leaf.numbers.rows);
  outcome.leaf.states = bound_.states();
  return true;
}

// Whether the whole problem, below which there are many leaves, has more states than a leaf should keep.
bool RunCaseSolver::has_many_states(Rounds& rounds) {
  if (!rounds.whole || rounds.best.duals.potentials.empty()) return false;
  bound_.rounded(rounds.best.duals, rounds.best.memory, rounds.limits, 1, kNoValue, kMemory.states);
  rounds.states = bound_.states();
  return rounds.states > kMemory.states;
}

// Customers keep fewer things from here on. False where they would keep too few.
bool RunCaseSolver::give_up_bits(Rounds& rounds) const {
  if (rounds.bits - kMemory.fewer_bits < kMemory.least_bits) return false;
  rounds.bits -= kMemory.fewer_bits;
  rounds.program.note_solution();
  rounds.program.memory().trim(rounds.bits, rounds.program.duals().rows);
  rounds.program.rebuild();
  rounds.best = {};
  return true;
}

// Cuts until the numbers reach the target, or the bound stalls. Rounding may lose what the bound has above
// the target: then it has to have more.
void RunCaseSolver::solve_rounds(Rounds& rounds, RunOutcome& outcome) {
  bool dived = false;
  for (;;) {
    cut(rounds);
    if (rounds.best.bound <= rounds.goal_value() && !std::exchange(dived, true)) look_for_plan(rounds);
    const bool reached = rounds.best.bound > rounds.goal_value();
    if (reached && settle(rounds, outcome)) {
      outcome.done = true;
      return;
    }
    if (clock_.over(kRouteTree.part_of_time)) return;
    const bool many =
        reached ? bound_.states() > kMemory.most_states : rounds.too_many_labels || has_many_states(rounds);
    if (many && give_up_bits(rounds)) continue;
    if (!reached || rounds.margin > 0.5) return;
    rounds.margin *= 3;
  }
}

// What an open case has: most are never rounded, since cases below have better duals.
void RunCaseSolver::leave_duals(Rounds& rounds, RunOutcome& outcome) const {
  if (rounds.best.duals.potentials.empty()) return;
  outcome.value = static_cast<Value>(std::floor(rounds.best.bound * static_cast<double>(problem_.scale)));
  outcome.leaf = {std::move(rounds.best.duals), {}, std::move(rounds.best.memory)};
}

// The radial duals, without a memory, where they are better: a clock that is over may have left none.
void RunCaseSolver::take_radial(const RunCase& here, RunOutcome& outcome) {
  RunDuals duals;
  static_cast<Duals&>(duals) = radial_duals(problem_.instance);
  Memory none{std::vector<Bits>(problem_.instance.nodes())};
  const auto made = bound_.rounded(duals, none, here.limits, 1, kNoValue, kMemory.most_states);
  if (!made || made->value <= outcome.value) return;
  outcome.value = made->value;
  outcome.leaf = {std::move(duals), {}, std::move(none)};
}

void RunCaseSolver::branch(Rounds& rounds, RunOutcome& outcome) {
  rounds.cuts.violated(rounds.program.support(), true, kCapacityCuts.least_violation);
  outcome.branch = choose_run_branch(solved(rounds), rounds.cuts.between());
  if (!outcome.branch) return;
  std::vector<NodeSet> sets;
  for (const CrossedSet& set : rounds.program.sets()) sets.push_back(set.set);
  outcome.start = std::make_shared<const RunStart>(
      RunStart{std::move(sets), rounds.program.best_runs(kRuns.kept), rounds.program.memory(), rounds.bits,
               rounds.grows && rounds.states <= kMemory.grown_states});
}

RunOutcome RunCaseSolver::solve(const RunCase& here, const Note& note) {
  RunProgram program(problem_.instance, here.start->memory);
  load(here, program);
  program.rebuild();
  Rounds rounds{program,
                CapacityCuts(problem_.instance, here.seed),
                here.limits,
                here.goal,
                note,
                here.whole,
                here.start->bits,
                here.start->grows};
  RunOutcome outcome;
  solve_rounds(rounds, outcome);
  if (rounds.shorter) outcome.routes = rounds.goal.routes;
  outcome.sets = static_cast<int>(program.sets().size());
  outcome.rows = static_cast<int>(program.memory().rows.size());
  outcome.runs = static_cast<int>(program.runs().size());
  if (outcome.done) return outcome;
  leave_duals(rounds, outcome);
  if (here.whole) take_radial(here, outcome);
  if (!clock_.over(kRouteTree.part_of_time)) branch(rounds, outcome);
  return outcome;
}
}  // namespace certify::routes
