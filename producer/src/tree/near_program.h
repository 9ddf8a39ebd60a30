// The numbers of a leaf as near as can be to those of the leaf before, which makes a short file.
//
// A linear program over 1-trees, whose weights are those by the last numbers. Each node and each cut may miss
// what it asks for by a penalty, at no cost. So the dual finds changes of the last numbers with the best
// bound, less the penalty for each unit of a change, and most numbers stay as they are. Source: M. Held and
// R. Karp, The traveling-salesman problem and minimum spanning trees (1970), whose bound it is.
#pragma once
#include "running/clock.h"
#include "tree/case_solver.h"

namespace certify {
// What numbers are found for.
struct NearLeaf {
  const Numbers& last;  // of the leaf before
  const Numbers& own;   // that reach the goal: their cuts are worth a multiplier
  const std::vector<Decision>& decisions;
  Value goal;
  Weight grid;  // changes are multiples of it
};

class NearProgram {
 public:
  // It takes time until this part of the clock's is over.
  NearProgram(const Problem& problem, const CutPool& pool, ExactBound& bound, const Clock& clock,
              double part_of_time);
  // Numbers near the last ones that reach the goal, or nothing where none were found.
  std::optional<Numbers> find(const NearLeaf& leaf);

 private:
  // What a row asks for, behind those of the nodes: of a cut, or that a set has no more edges than a tree.
  struct Row {
    int cut;  // -1 for a tree
    NodeSet set;
  };
  // An edge, or how much more often a cut is crossed than it has to be.
  struct Column {
    Pair edge;
    int surplus_of;  // a row behind those of the nodes, or -1
  };
  int nodes() const { return weights_.nodes(); }
  int first_row() const { return nodes() + 1; }
  bool is_edge(std::size_t column) const { return columns_[column].surplus_of < 0; }
  double entry(const Row& row, const Pair& edge) const;
  void add_edges(const std::vector<Pair>& edges);
  void add_rows(std::vector<Row> rows);
  void add_cuts(const Numbers& numbers);
  bool is_slack(std::size_t row, int surplus, const NearLeaf& leaf) const;
  void drop_slack_rows(const NearLeaf& leaf);
  void set_costs();
  void decide(const std::vector<Decision>& decisions);
  void set_penalty(double penalty);
  bool is_over() const { return clock_.over(part_of_time_); }
  bool solve(bool by_primal);
  std::vector<double> reduced_costs() const;
  Graph support() const;
  std::vector<int> edges_in_order() const;
  void add_first_sets();
  void add_sets(std::vector<NodeSet>& sets);
  int add_violated_sets();
  Numbers numbers(Weight grid) const;
  std::optional<Numbers> reach(double penalty, const NearLeaf& leaf);

  const Matrix& weights_;
  const CutPool& pool_;
  ExactBound& bound_;
  const Clock& clock_;
  double part_of_time_;
  double unit_;  // of the program's costs
  ClpSimplex program_;
  std::vector<Row> rows_;
  std::vector<Column> columns_;
  std::map<Pair, int> column_of_;
  std::map<int, int> row_of_;  // of cuts, behind those of the nodes
  Numbers last_{};
  std::vector<Pair> decided_;
  double penalty_;  // that is tried first
  bool begun_ = false;
};
}  // namespace certify
