// The linear program over runs: each customer once, sets crossed often enough, and subset rows.
#pragma once
#include <array>
#include <optional>

#include "memory/memory_words.h"
#include "routes/route_program.h"

namespace certify::routes {
// A set of customers, and how often it is crossed.
struct CrossedSet {
  NodeSet set;
  std::vector<char> inside;
  Crossings crossings;
  bool limited = false;  // by a decision: it is never dropped
  int slack_solutions = 0;
  ClpSimplex::Status status = ClpSimplex::basic;  // of its row
  std::array<ClpSimplex::Status, 2> unmet{ClpSimplex::atLowerBound, ClpSimplex::atLowerBound};
};

class RunProgram : public RouteProgram {
 public:
  RunProgram(const CvrpInstance& instance, Memory memory);
  // Rows. What changes them takes effect by rebuild().
  const Memory& memory() const { return memory_; }
  Memory& memory() { return memory_; }
  const std::vector<CrossedSet>& sets() const { return sets_; }
  bool has_set(const NodeSet& set) const { return place_of(set) != sets_.end(); }
  Crossings crossings_under(const NodeSet& set) const;
  void add_set(const NodeSet& set);
  void limit(const NodeSet& set, const Crossings& crossings);
  // Drops sets and rows that were slack in more solutions in a row, and runs that cost too much or that the
  // memory no longer allows.
  void drop_slack(int set_age, int row_age);
  void drop_runs();
  // Adds runs that aren't there yet. How many.
  int add_runs(const std::vector<Route>& runs);
  const std::vector<Route>& runs() const { return routes_; }

  // Makes the program anew, and solves it from the basis that was noted.
  void rebuild();
  void solve() { program_.primal(0); }
  RunDuals duals() const;
  // What runs remember, but for the rows that these duals leave out.
  MemoryWords<double> words(const RunDuals& duals) const {
    return {memory_.with_rows_of(duals.rows), duals.rows};
  }
  // What duals give back, with the crossings of this program.
  double back_of(const RunDuals& duals) const;
  // The runs that the solution uses, and how far.
  std::vector<std::pair<double, int>> used() const;
  // Those that the solution uses wholly, if it uses no others and they are a plan.
  std::optional<Routes> plan() const;
  // The run is used wholly from here on. Solves the program with that.
  void fix(int run);
  // Notes which rows are slack in the solution, and its basis. To be called before rows change.
  void note_solution();
  // The least reduced costs first.
  std::vector<Route> best_runs(std::size_t most) const { return best_routes(most, 1); }
  // By how much the value is higher where a set is crossed at most 2 t times, and at least 2 t + 2 times.
  std::array<double, 2> gains(const NodeSet& set, int t, double enough) const;

 private:
  std::vector<CrossedSet>::const_iterator place_of(const NodeSet& set) const;
  struct RowState {
    int slack_solutions = 0;
    ClpSimplex::Status status = ClpSimplex::basic;
  };
  void list_run(const Route& run, Columns& columns) const;
  void list_unmet(Columns& columns) const;
  void set_row_bounds();
  void set_basis();

  Memory memory_;
  std::vector<CrossedSet> sets_;
  std::vector<RowState> row_states_;                                       // of subset rows
  std::vector<ClpSimplex::Status> customers_, unmet_customers_, of_runs_;  // the basis that was noted
};
}  // namespace certify::routes
