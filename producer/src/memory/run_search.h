// Branch, cut and price by runs with a memory: the tree of a CVRP's cases, and its certificate.
//
// Its cases have rows and memory too. Each case has its own, and a file has what all its leaves need.
#pragma once
#include <functional>
#include <set>

#include "memory/run_case.h"
#include "routes/set_search.h"

namespace certify::routes {
struct RunKind {
  using Numbers = SettledLeaf;
  using Start = RunStart;
  using Case = RunCase;
  using Outcome = RunOutcome;
  using Solver = RunCaseSolver;
  using Bound = RunBound;
};

class RunSearch : public SetSearch<RunKind> {
 public:
  RunSearch(const CvrpInstance& instance, const Loads& loads, const RouteBegin& begin, const Clock& clock,
            Progress& progress, const Plan& plan = {});
  void run();
  const Certificate& certificate() { return made_.certificate(); }
  // Whether each leaf reaches the target by its own memory, but not all do by what the file has room for.
  bool is_crowded() const { return reached_ && least_ < aim(); }

 private:
  void solve_first();
  void take(int place, RunOutcome& outcome) override;
  std::shared_ptr<const RunStart> start_below(const RunOutcome& outcome) const;
  void go_on(int place, const RunOutcome& outcome);
  void finish_reached() override;
  std::string counts() const override;
  void settle(Tree::Place& here, const std::vector<Limit>& limits);
  void join_memory();
  void join_row(SettledLeaf& leaf, const SubsetRow& row);
  std::map<NodeSet, Weight> charges() const;
  void drop_uncharged();
  void drop(const std::set<NodeSet>& rows);
  std::set<NodeSet> light_rows(const std::function<bool(const NodeSet&)>& may_go) const;
  bool is_too_large(int place);
  bool still_reach(const std::vector<int>& places);
  bool give_up_spared(int place, std::set<NodeSet>& needed);
  bool give_up();
  bool fit(int place);
  void fit_leaves();
  void coarsen();
  void add_leaf(int place);
  void add_rows(const RunLeaf& numbers);
  void list_memory();

  const std::size_t most_states_;       // of a leaf by the file's memory
  Memory memory_;                       // of the file
  std::map<NodeSet, int> places_{};     // of the file's rows
  int sets_ = 0, rows_ = 0, runs_ = 0;  // of the last program
  std::size_t states_ = 0;              // the most of a leaf in the file
  bool reached_ = false;                // whether each leaf reaches the target by its own memory
};
}  // namespace certify::routes
