// Branch, cut and price for a CVRP: the tree of its cases, which have branches on sets until each leaf
// reaches the target, or the time is over.
//
// Source: R. Fukasawa, H. Longo, J. Lysgaard, M. Poggi de Aragao, M. Reis, E. Uchoa and R. Werneck, Robust
// branch-and-cut-and-price for the capacitated vehicle routing problem, Mathematical Programming 106 (2006).
#pragma once
#include <set>

#include "routes/set_search.h"

namespace certify::routes {
struct RouteKind {
  using Numbers = LeafNumbers;
  using Start = RouteStart;
  using Case = RouteCase;
  using Outcome = RouteOutcome;
  using Solver = RouteCaseSolver;
  using Bound = WalkBound;
};

class RouteSearch : public SetSearch<RouteKind> {
 public:
  RouteSearch(const CvrpInstance& instance, const Loads& loads, const RouteBegin& begin, const Clock& clock,
              Progress& progress, const Plan& plan = {});
  void run();
  // The tree. Where it was split, the sets of its open cases follow those of its steps.
  Certificate certificate();
  // The leaves that don't reach the target, from 1 on.
  const std::vector<int>& open_leaves() const { return open_leaves_; }

 private:
  void take_tree(const Certificate& tree);
  void take_step(const Certificate& tree, const TreeStep& step);
  void solve_first();
  void take(int place, RouteOutcome& outcome) override;
  void name_sets(LeafNumbers& numbers);
  void go_on(int place, const RouteOutcome& outcome);
  void finish_reached() override;
  bool is_full() override;
  std::string counts() const override;
  void coarsen();
  LeafNumbers near_last(const LeafNumbers& own, const std::vector<Limit>& limits);
  void add_leaf(const Tree::Place& leaf, const std::vector<Limit>& limits);

  const RouteCertificates certificates_;
  std::set<NodeSet> named_;  // sets that a file has to have
  std::size_t named_nodes_ = 0;
  std::vector<int> open_leaves_;
  Numbers last_{};  // of the last leaf of the file
  LeafNumbers last_numbers_{};
  std::optional<Weight> grid_{};  // all numbers are multiples of it, where all leaves are done
  std::size_t differences_ = 0;
  int sets_ = 0, walks_ = 0;  // of the last program
};
}  // namespace certify::routes
