// The linear program over walks, by Clp.
//
// Each customer is visited once, and sets of customers are crossed as often as their demands and the
// decisions need. Sources: M. Balinski and R. Quandt, On an integer program for a delivery problem,
// Operations Research 12 (1964); R. Fukasawa, H. Longo, J. Lysgaard, M. Poggi de Aragao, M. Reis, E. Uchoa
// and R. Werneck, Robust branch-and-cut-and-price for the capacitated vehicle routing problem, Mathematical
// Programming 106 (2006).
#pragma once
#include "routes/route_program.h"
#include "routes/walk_bound.h"

namespace certify::routes {
class WalkProgram : public RouteProgram {
 public:
  // Begins with a walk to each customer, and the row of all customers. The length sets the penalty, or the
  // largest cost where costs below 0 make it short. Costs, values and duals are in the unit of costs.
  WalkProgram(const CvrpInstance& instance, Weight length);
  // Sets that join may be crossed as each plan does. How many weren't there yet.
  int add_sets(const std::vector<NodeSet>& sets);
  // The crossings that decisions leave to a set. Its row is never dropped, and elastic.
  void limit(const NodeSet& set, const Crossings& crossings);
  // How many weren't there yet.
  int add_walks(const std::vector<Route>& walks);
  void solve();
  double unit() const { return unit_; }
  // Whether the solution breaks a decision, at a penalty. A higher one helps where it is too low.
  bool is_broken() const;
  void raise_penalty();
  Duals duals() const;
  // Drops the sets that were slack in more solutions than this in a row.
  void drop_sets(int age);
  // Where there are very many walks, drops those whose reduced cost is more.
  void drop_walks(double reduced_cost);
  std::vector<NodeSet> sets() const;
  // The walks with the least reduced costs.
  std::vector<Route> best_walks(std::size_t most) const { return best_routes(most, 2); }
  int walks() const { return static_cast<int>(routes_.size()); }
  // As gains_by() of every program over routes.
  std::array<double, 2> gains(const NodeSet& set, int t, int iterations) const {
    return gains_by(set, t, iterations, penalty_);
  }

 private:
  struct Row {
    NodeSet set;
    std::vector<char> inside;  // of each node
    Crossings crossings;
    int slack_solutions = 0;
    bool limited = false;
  };
  const double unit_;
  double penalty_;
  std::vector<Row> rows_;
  std::map<NodeSet, int> places_;  // of rows
};
}  // namespace certify::routes
