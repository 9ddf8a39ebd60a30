#include "routes/route_case.h"

#include <algorithm>
#include <cmath>

#include "routes/radial_duals.h"
#include "routes/route_parameters.h"

namespace certify::routes {
namespace {
// The routes of a solution that uses each link wholly or not at all, each in its cheaper direction. Nothing
// where it isn't such a one.
std::optional<Routes> routes_along(const CvrpInstance& instance, const Graph& support) {
  for (int v = 1; v < instance.nodes(); v++) {
    double degree = 0;
    for (const Edge& edge : support[v]) {
      if (std::abs(edge.value - std::round(edge.value)) > 1e-5) return std::nullopt;
      degree += edge.value;
    }
    if (std::abs(degree - 2) > 1e-4) return std::nullopt;
  }
  Routes routes;
  std::vector<char> served(instance.nodes(), 0);
  for (const Edge& begin : support[0]) {
    if (served[begin.to] != 0 || begin.value < 0.5) continue;
    Route route;
    for (int v = begin.to, last = 0; v != 0;) {
      if (served[v] != 0) return std::nullopt;
      served[v] = 1;
      route.push_back(v);
      const auto on = std::find_if(support[v].begin(), support[v].end(),
                                   [&](const Edge& edge) { return edge.to != last && edge.value > 0.5; });
      last = v;
      v = on == support[v].end() ? 0 : on->to;
    }
    const Route back(route.rbegin(), route.rend());
    routes.push_back(length_of(instance, back) < length_of(instance, route) ? back : route);
  }
  return routes;
}
}  // namespace

// A case at hand.
struct RouteCaseSolver::Rounds {
  WalkProgram& program;
  ColumnGeneration generation;
  CapacityCuts cuts;
  const std::vector<Limit>& limits;
  RouteGoal goal;
  const Note& note;
  bool whole;
  bool shorter = false;  // the goal's plan is a new one
  double margin = kRouteLeaves.margin;
  void tell() const {
    if (!note || !generation.has_bound()) return;
    const auto bound = static_cast<Weight>(std::floor(generation.bound() * program.unit()));
    note(goal.length, bound, static_cast<int>(program.sets().size()), program.walks());
  }
  double goal_value() const { return (static_cast<double>(goal.target) - 1 + margin) / program.unit(); }
};

RouteCaseSolver::RouteCaseSolver(const RouteProblem& problem, const Clock& clock)
    : problem_(problem), clock_(clock), bound_(problem.instance, problem.loads, problem.scale) {}

void RouteCaseSolver::load(const RouteCase& here, WalkProgram& program) const {
  std::vector<NodeSet> sets;
  if (here.start) sets = here.start->sets;
  for (const auto& [set, multiplier] : here.numbers.multipliers) sets.push_back(set);
  program.add_sets(sets);
  for (const auto& [set, crossings] : limited_crossings(problem_.instance, here.limits)) {
    program.limit(set, crossings);
  }
  if (here.start) program.add_walks(here.start->walks);
  program.add_walks(here.goal.routes);
}

// Good duals to begin with: those from above, else those of the shortest plan.
void RouteCaseSolver::begin(const RouteCase& here, ColumnGeneration& generation) const {
  if (here.start && !here.start->duals.potentials.empty()) {
    generation.set_best(here.start->duals);
  } else if (!here.numbers.potentials.empty()) {
    generation.set_best(duals_of(problem_.instance, here.numbers, problem_.scale));
  } else {
    generation.begin_with(here.goal.routes, [&] { return clock_.over(kRouteTree.part_of_time); });
  }
}

void RouteCaseSolver::look_for_plan(Rounds& rounds) const {
  const auto routes = routes_along(problem_.instance, rounds.program.support());
  if (!routes || !is_plan(problem_.instance, *routes)) return;
  const Weight length = length_of(problem_.instance, *routes);
  if (length >= rounds.goal.length) return;
  rounds.goal = {*routes, length, std::min(rounds.goal.target, length)};
  rounds.shorter = true;
}

// False where the solution misses none.
bool RouteCaseSolver::add_cuts(Rounds& rounds, bool thorough) {
  std::vector<NodeSet> sets;
  for (const CapacityCut& cut :
       rounds.cuts.violated(rounds.program.support(), thorough, kCapacityCuts.least_violation)) {
    if (sets.size() >= kCapacityCuts.most_at_once) break;
    sets.push_back(cut.set);
  }
  return rounds.program.add_sets(sets) > 0;
}

// Walks and cuts in turn. First the duals need not be near the best ones; where that finds no cut, or the
// bound stalls, they have to be nearer.
void RouteCaseSolver::cut(Rounds& rounds) {
  const double length = (static_cast<double>(std::abs(rounds.goal.length)) + 1) / rounds.program.unit();
  const CutRounds& plan = rounds.whole ? kRootRounds : kTreeRounds;
  double tolerance = plan.first_tolerance * length;
  const double last_tolerance = std::max(plan.last_tolerance * length, 1e-6);
  std::vector<double> past;
  const std::function<bool()> late = [&] { return clock_.over(kRouteTree.part_of_time); };
  for (int round = 1, raises = 0;; round++) {
    const bool last = tolerance <= last_tolerance;
    const double bound = rounds.generation.run({rounds.goal_value(), tolerance, last, late});
    look_for_plan(rounds);
    rounds.tell();
    if (bound > rounds.goal_value() || late()) return;
    past.push_back(bound);
    const bool stalls =
        past.size() > plan.window && bound - past[past.size() - 1 - plan.window] < plan.least_gain * length;
    const bool broken = last && raises < 4 && rounds.program.is_broken();
    if (stalls && last && !broken) return;
    if (!stalls && (add_cuts(rounds, false) || add_cuts(rounds, true))) {
      if (round % 4 == 0) rounds.program.drop_sets(kCapacityCuts.slack_solutions);
      continue;
    }
    if (broken) {
      rounds.program.raise_penalty();
      raises++;
    } else if (last) {
      return;
    }
    tolerance = std::max(last_tolerance, tolerance / 5);
    past.clear();
  }
}

// Where the bound is above the target, it becomes higher by the cuts that are there.
void RouteCaseSolver::spare(Rounds& rounds) const {
  if (rounds.generation.bound() <= rounds.goal_value()) return;
  const double length = static_cast<double>(std::abs(rounds.goal.length)) + 1;
  const std::function<bool()> late = [&] { return clock_.over(kRouteTree.part_of_time); };
  const double more = rounds.goal_value() + kRouteLeaves.spare / rounds.program.unit();
  rounds.generation.run({more, kTreeRounds.first_tolerance * length / rounds.program.unit(), false, late});
}

void RouteCaseSolver::branch(Rounds& rounds, RouteOutcome& outcome) const {
  rounds.cuts.violated(rounds.program.support(), true, kCapacityCuts.least_violation);
  outcome.branch =
      choose_branch({problem_.instance, problem_.loads, rounds.program, rounds.limits, rounds.goal_value()},
                    rounds.cuts.between());
  if (!outcome.branch) return;
  RouteStart start{rounds.program.sets(), rounds.program.best_walks(kRouteTree.walks),
                   rounds.generation.best()};
  outcome.start = std::make_shared<const RouteStart>(std::move(start));
}

// The best numbers from above, or the duals as whole numbers where their bound is better. A clock that is
// over may have left duals of the whole problem that are worth less than the radial ones.
RouteOutcome RouteCaseSolver::settled(const RouteCase& here, const Duals& duals) {
  RouteOutcome outcome;
  outcome.numbers = here.numbers;
  if (!here.numbers.potentials.empty()) outcome.value = bound_.value(here.numbers, here.limits);
  const auto take = [&](const Duals& made) {
    LeafNumbers numbers = bound_.rounded(made, 1);
    const Value value = bound_.value(numbers, here.limits);
    if (value <= outcome.value) return;
    outcome.value = value;
    outcome.numbers = std::move(numbers);
  };
  if (!duals.potentials.empty()) take(duals);
  if (here.whole && outcome.value < aim(here.goal)) take(radial_duals(problem_.instance));
  return outcome;
}

RouteOutcome RouteCaseSolver::solve(const RouteCase& here, const Note& note) {
  WalkProgram program(problem_.instance, here.goal.length);
  load(here, program);
  Rounds rounds{program,
                ColumnGeneration(problem_.instance, problem_.loads, program, here.limits),
                CapacityCuts(problem_.instance, here.seed),
                here.limits,
                here.goal,
                note,
                here.whole};
  begin(here, rounds.generation);
  cut(rounds);
  spare(rounds);
  RouteOutcome outcome = settled(here, rounds.generation.best());
  // Rounding may lose what the bound has above the target. Then it has to have more.
  while (outcome.value < aim(rounds.goal) && rounds.generation.bound() > rounds.goal_value() &&
         rounds.margin < 1 && !clock_.over(kRouteTree.part_of_time)) {
    rounds.margin *= 4;
    cut(rounds);
    outcome = settled(here, rounds.generation.best());
  }
  if (rounds.shorter) outcome.routes = rounds.goal.routes;
  outcome.sets = static_cast<int>(program.sets().size());
  outcome.walks = program.walks();
  outcome.done = outcome.value >= aim(rounds.goal);
  if (!outcome.done && !clock_.over(kRouteTree.part_of_time)) branch(rounds, outcome);
  return outcome;
}
}  // namespace certify::routes
