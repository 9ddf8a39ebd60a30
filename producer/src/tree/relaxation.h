// The linear program over all edges: degrees of 2, and the rows of cuts in inner form. Of an ATSP it is over
// the arcs: one leaves each node, one enters it, and a cut counts arcs in both directions. Edges join by
// exact pricing over all pairs, and elastic columns keep it feasible. Source: D. Applegate, R. Bixby, V.
// Chvatal and W. Cook, The Traveling Salesman Problem (2006).
#pragma once
#include "reading/instance.h"
#include "tree/cut_program.h"

namespace certify {
// A pair of nodes that is used, or isn't.
struct Decision {
  Pair pair;
  bool used;
};

// A warm start: the edges and cuts of a program, and the basis of its solution.
struct Basis {
  std::vector<int> cuts;
  std::vector<ClpSimplex::Status> rows, elastic;  // the rows of the degrees, then those of the cuts
  std::vector<Pair> edges, basic, at_one;
  double penalty;       // of the elastic columns
  EdgeWeights weights;  // of the rows, then of the basic edges
};

class Relaxation : public CutProgram {
 public:
  Relaxation(const Instance& instance, const CutPool& pool, const Tour& tour);
  // Becomes the program without edges, cuts and decisions, as if it were new.
  void reset();
  void add_edges(const std::vector<Pair>& edges);
  void decide(const Decision& decision);
  void release(const Pair& pair);
  // Drops the slack rows that were slack in more solutions than this in a row.
  void purge(int age);
  // Drops edges at 0 whose reduced cost is more than half an average edge. Pricing brings back those that are
  // needed.
  void drop_edges();
  void solve();
  // Whether each edge is used wholly or not at all.
  bool is_whole() const;
  // Takes duals for which the edges of a whole solution are the best ones even where each costs as much more,
  // if there are any. The next call is solve().
  void take_margin(double margin);
  Basis basis() const;
  // Takes the edges, the cuts and the basis. No pair may be decided.
  void restore(const Basis& basis);

  // The dual of a node's degree at the weights' own unit. Of an ATSP each node has two: of the arc that
  // leaves it, and of the arc that enters it.
  double leaving_dual(int node) const { return node_duals_[node] * unit_ + static_cast<double>(least_) / 2; }
  double entering_dual(int node) const { return leaving_dual(entering_row(node)); }

  const Pair& edge(int column) const { return edges_[column]; }
  double solution(int column) const { return solution_[column]; }

  // A column, and the value 0 or 1 that its edge takes.
  struct Fixing {
    int column, value;
  };
  // What the value gains by each of these, with at most as many dual iterations from the solution at hand.
  // They are tried at once, on copies of the program.
  std::vector<double> gains(const std::vector<Fixing>& fixings, int iterations) const;

 private:
  static constexpr int kElastic = 3;
  int entering_row(int node) const { return instance_.directed ? nodes_ + node : node; }
  void begin();
  void set_penalty(double penalty);
  int price();
  bool raise_penalty();
  void read_duals();
  void read_solution();
  void add_support(int node, int to, double value);
  void take_columns(const Basis& basis);
  void take_rows(const Basis& basis);
  int column_of(const Pair& pair) const;
  void set_bounds(const Pair& pair, double low, double high);
  std::vector<std::vector<Pair>> memberships() const;
  void list_entries(const std::vector<Pair>& of_one, const std::vector<Pair>& of_other,
                    Entries& entries) const;
  double list_row(int cut, Entries& entries) override;
  std::vector<Weight> rounded_up_duals() const;
  std::vector<Pair> missing_edges(const std::vector<std::vector<std::pair<int, double>>>& sets) const;

  const Instance& instance_;
  const Matrix& weights_;
  Weight least_ = 0;                        // the program takes the weights less the least one
  double length_ = 0, average_ = 1;         // of the tour, and of an edge of it
  double penalty_ = 1, least_penalty_ = 1;  // of the elastic columns
  std::vector<char> present_;               // of each pair
  std::vector<double> counts_;              // of the edges in a row that is made: 0 before and after
  std::vector<double> node_duals_;
};
}  // namespace certify
