// The linear program of a large instance of points, which holds no matrix: degrees of 2, and the rows of
// cuts. It has the edges of a tour, so that it is always feasible, and others that join by pricing candidate
// edges. Edges that no candidate is are found by a leaf's least 1-tree, see sparse_leaf.h.
//
// Each set of a cut counts either the edges inside or those that cross it, whatever are fewer, so that rows
// of large sets are short. Duals are told as if all sets counted the edges inside. Clp solves it.
// Source: D. Applegate, R. Bixby, V. Chvatal and W. Cook, The Traveling Salesman Problem (2006).
#pragma once
#include <unordered_map>

#include "points/problem.h"
#include "running/clock.h"
#include "tree/cut_program.h"

namespace sparse {
using certify::CutPool;
using certify::Graph;
using certify::NodeSet;
using certify::Pair;
using certify::Tour;
using certify::Weight;
using potentials::Problem;

class SparseProgram : public certify::CutProgram {
 public:
  // A solution ends early where the part of the time is over that linear programs may take for cuts. What the
  // program then says of duals is valid, but not the best.
  SparseProgram(const Problem& problem, const CutPool& pool, const Tour& tour, const certify::Clock& clock);
  void add_edges(const std::vector<Pair>& edges);
  // Edges that pricing looks at from here on, besides those before.
  void add_candidates(const std::vector<Pair>& edges);
  // Solutions end where this part of the time is over.
  void end_at(double part);
  // Drops the combs that aren't in these rows, which are in order.
  void keep_combs(const std::vector<std::size_t>& rows);
  // Drops the slack rows that were slack in more solutions than this in a row.
  void purge(int age) { drop_slack(age); }
  // Drops edges at 0 whose reduced cost is large. They are candidates from here on.
  void drop_edges();
  // Candidates join until they are at most as few in a solution. These are in the next one. False where the
  // time is over.
  bool solve(int few = 0);

  // Whether cuts joined after the last solution.
  bool has_new_cuts() const { return has_new_cuts_; }
  std::size_t nonzeros() const { return static_cast<std::size_t>(program_.getNumElements()); }
  // The dual of a degree at the weights' own unit.
  double node_dual(int node) const { return node_duals_[node] * unit_; }
  double average() const { return average_; }
  // The edges of the program.
  const std::vector<Pair>& edges() const { return edges_; }

 private:
  // A set of a row that a node is in.
  struct Member {
    int row, set;
    bool crossing;  // the row counts the edges that cross the set
    bool operator<(const Member& other) const { return row != other.row ? row < other.row : set < other.set; }
  };
  void begin();
  int price();
  void read_duals();
  void read_solution();
  std::vector<std::vector<Member>> memberships() const;
  void list_entries(const std::vector<Member>& of_one, const std::vector<Member>& of_other,
                    Entries& entries) const;
  bool count_edges(const NodeSet& set, std::vector<int>& touched);
  double list_row(int cut, Entries& entries) override;
  double reduced_cost(const Pair& edge, const std::vector<std::vector<Member>>& members) const;
  void leave_basis(const std::vector<char>& dropped);
  void drop_rows(const std::vector<char>& dropped) override;

  static Pair sorted(const Pair& edge) { return std::minmax(edge.first, edge.second); }
  static std::uint64_t key_of(const Pair& edge) {
    return static_cast<std::uint64_t>(edge.first) << 32 | static_cast<std::uint32_t>(edge.second);
  }

  const Problem& problem_;
  const certify::Clock& clock_;
  double average_ = 1;  // of an edge of the tour
  std::vector<Pair> candidates_;
  std::unordered_map<std::uint64_t, int> column_of_;
  std::vector<char> kept_;                   // of each edge: it is the tour's or fixed
  std::vector<std::vector<char>> crossing_;  // of each row's sets
  std::vector<double> node_duals_;
  std::vector<char> mark_;            // of the nodes of a set that is looked at
  std::vector<int> inside_, across_;  // the columns of its edges
  std::vector<double> counts_;        // of the edges in a row that is made: 0 before and after
  bool has_new_cuts_ = false;
};
}  // namespace sparse
