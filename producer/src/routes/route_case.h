// One case of the tree of a CVRP: walks and cuts until its numbers reach the target, or a branch.
//
// What comes of a case depends on nothing but the case, so that cases may be solved by any thread.
#pragma once
#include <memory>

#include "routes/column_generation.h"
#include "routes/set_branching.h"
#include "running/clock.h"

namespace certify::routes {
// What all cases have in common.
struct RouteProblem {
  const CvrpInstance& instance;
  const Loads& loads;
  Weight scale;
};

// The shortest plan that is known, and the length that a bound has to reach.
struct RouteGoal {
  Routes routes;
  Weight length, target;
};

// What a case leaves to those of its branch.
struct RouteStart {
  std::vector<NodeSet> sets{};
  std::vector<Route> walks{};
  Duals duals{};
};

struct RouteCase {
  std::vector<Limit> limits{};
  std::shared_ptr<const RouteStart> start{};  // of the parent; nothing at the root
  LeafNumbers numbers{};                      // the best ones from above, where there are any
  RouteGoal goal{};
  std::uint64_t seed = 1;
  bool whole = false;  // the whole problem, on which more time is spent
};

// Numbers that reach the target, or a branch, or neither where the time is over.
struct RouteOutcome {
  bool done = false;
  LeafNumbers numbers{};
  Value value = WalkBound::nothing();
  std::optional<SetBranch> branch{};
  std::shared_ptr<const RouteStart> start{};  // where there is a branch
  std::optional<Routes> routes{};             // a shorter plan
  int sets = 0, walks = 0;                    // of the program
};

class RouteCaseSolver {
 public:
  using Note = std::function<void(Weight length, Weight bound, int sets, int walks)>;
  RouteCaseSolver(const RouteProblem& problem, const Clock& clock);
  RouteOutcome solve(const RouteCase& here, const Note& note = nullptr);

 private:
  struct Rounds;
  void load(const RouteCase& here, WalkProgram& program) const;
  void begin(const RouteCase& here, ColumnGeneration& generation) const;
  void cut(Rounds& rounds);
  bool add_cuts(Rounds& rounds, bool thorough);
  void look_for_plan(Rounds& rounds) const;
  void spare(Rounds& rounds) const;
  RouteOutcome settled(const RouteCase& here, const Duals& duals);
  void branch(Rounds& rounds, RouteOutcome& outcome) const;
  Value aim(const RouteGoal& goal) const { return value_to_reach(goal.target, problem_.scale); }

  const RouteProblem& problem_;
  const Clock& clock_;
  WalkBound bound_;
};
}  // namespace certify::routes
