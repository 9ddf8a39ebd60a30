// One case of the tree by runs with a memory: runs, sets, rows and memory until its numbers reach the target,
// or a branch.
#pragma once
#include <memory>

#include "memory/label_search.h"
#include "memory/memory_parameters.h"
#include "memory/run_bound.h"
#include "memory/run_branching.h"
#include "memory/run_program.h"
#include "routes/route_case.h"

namespace certify::routes {
// What a case leaves to those of its branch.
struct RunStart {
  std::vector<NodeSet> sets{};
  std::vector<Route> runs{};
  Memory memory{};
  int bits = kMemory.bits;  // that a customer keeps at most
  bool grows = true;        // whether memory and rows may join
};

struct RunCase {
  std::vector<Limit> limits{};
  std::shared_ptr<const RunStart> start{};  // of the parent, or with runs alone
  RouteGoal goal{};
  std::uint64_t seed = 1;
  bool whole = false;  // the whole problem, on which more time is spent
};

struct RunOutcome {
  bool done = false;
  SettledLeaf leaf{};
  Value value = kNoValue;  // exact if the case is done, else that of the duals
  std::optional<SetBranch> branch{};
  std::shared_ptr<const RunStart> start{};  // where there is a branch
  std::optional<Routes> routes{};           // a shorter plan
  int sets = 0, rows = 0, runs = 0;         // of the program
};

class RunCaseSolver {
 public:
  using Note = std::function<void(Weight length, Weight bound, const RunProgram& program)>;
  RunCaseSolver(const RouteProblem& problem, const Clock& clock);
  RunOutcome solve(const RunCase& here, const Note& note = nullptr);

 private:
  struct Rounds;
  // The best duals of a case, and their bound.
  struct Best {
    double bound = -1e30;
    RunDuals duals{};
    Memory memory{};
  };
  void load(const RunCase& here, RunProgram& program) const;
  bool generate(Rounds& rounds);
  LabelSearch::Found price(const RunProgram& program, const RunDuals& duals, int turn);
  void take_bound(Rounds& rounds, RunDuals duals, double least) const;
  void cut(Rounds& rounds);
  int add_cuts(Rounds& rounds);
  void take_plan(Rounds& rounds, const std::optional<Routes>& plan) const;
  void look_for_plan(Rounds& rounds);
  SolvedRunCase solved(const Rounds& rounds);
  bool settle(Rounds& rounds, RunOutcome& outcome);
  bool has_many_states(Rounds& rounds);
  bool give_up_bits(Rounds& rounds) const;
  void solve_rounds(Rounds& rounds, RunOutcome& outcome);
  void leave_duals(Rounds& rounds, RunOutcome& outcome) const;
  void take_radial(const RunCase& here, RunOutcome& outcome);
  void branch(Rounds& rounds, RunOutcome& outcome);

  const RouteProblem& problem_;
  const Clock& clock_;
  LabelSearch labels_;
  RunBound bound_;
};
}  // namespace certify::routes
