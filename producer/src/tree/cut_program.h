// A linear program over edges that has a row of each cut: what those over all pairs and over candidates have
// in common. The first rows are those of degrees, and the first columns may be elastic.
//
// Cuts and edges join and are dropped again, and Clp goes on from the basis that is left. Which edges join is
// up to what prices them. Source: D. Applegate, R. Bixby, V. Chvatal and W. Cook, The Traveling Salesman
// Problem (2006).
#pragma once
#include <coin/ClpSimplex.hpp>
#include <unordered_map>

#include "cuts/cut_pool.h"
#include "tree/steepest_edge.h"

namespace certify {
class CutProgram {
 public:
  CutProgram(const CutProgram&) = delete;  // Clp has a pointer to the weights of this one
  CutProgram& operator=(const CutProgram&) = delete;
  // Those that are there already stay.
  void add_cuts(const std::vector<int>& cuts);
  bool has(int cut) const { return row_of_.count(cut) > 0; }
  const std::vector<int>& cuts() const { return cuts_; }
  int columns() const { return static_cast<int>(edges_.size()); }
  double value() const { return value_; }
  const Graph& support() const { return support_; }
  // The dual of a cut at the weights' own unit, by its place in cuts().
  double cut_dual(std::size_t row) const { return cut_duals_[row] * unit_; }

 protected:
  struct Place {
    int node, column;
  };
  // The entries of rows or columns, as Clp takes them.
  struct Entries {
    std::vector<CoinBigIndex> starts{0};
    std::vector<int> places;
    std::vector<double> elements;
    void end() { starts.push_back(static_cast<CoinBigIndex>(places.size())); }
    int count() const { return static_cast<int>(starts.size()) - 1; }
  };
  // So many rows of degrees and elastic columns.
  CutProgram(const CutPool& pool, int nodes, int degrees, int elastic)
      : pool_(pool), nodes_(nodes), degrees_(degrees), elastic_(elastic), adjacent_(nodes) {}
  ~CutProgram() = default;
  // Lists the entries of a cut's row. What the row is at most.
  virtual double list_row(int cut, Entries& entries) = 0;
  // Makes the program empty. Clp chooses the rows that leave the basis by weights that outlive it.
  void clear();
  // Lists an edge with its column at both nodes.
  void name_column(const Pair& edge, int column);
  // A new column of an edge, which takes the next number.
  void index_edge(const Pair& edge);
  void add_columns(const Entries& entries, const std::vector<double>& objective);
  // Drops the rows that were slack in more solutions than this in a row, and are so in the basis.
  void drop_slack(int age);
  // Each takes one mark for each cut, or for each edge.
  virtual void drop_rows(const std::vector<char>& dropped);
  void drop_columns(const std::vector<char>& dropped);
  // True where the solution is the best one; it isn't where Clp was stopped.
  bool optimize();
  // Solves the program as often as goes_on(is_best) adds something to it.
  template <class GoesOn>
  void solve_while(const GoesOn& goes_on) {
    while (goes_on(optimize())) {
    }
  }
  void read_cut_duals();
  void read_columns();
  // How many solutions in a row each cut was slack in.
  void note_ages();

  const CutPool& pool_;
  int nodes_, degrees_, elastic_;
  double unit_ = 1, offset_ = 0;      // the program's value times the unit, and the offset: the weights' own
  mutable EdgeWeights edge_weights_;  // trials on copies freeze them
  ClpSimplex program_;
  std::vector<Pair> edges_;
  std::vector<std::vector<Place>> adjacent_;  // by node, its edges
  std::vector<int> cuts_, ages_;
  std::unordered_map<int, int> row_of_;
  std::vector<double> solution_, cut_duals_;  // at the program's unit
  Graph support_;
  double value_ = 0;
};
}  // namespace certify
