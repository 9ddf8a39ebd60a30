// Weights between nodes, tours, and the nearest neighbours of each node. Nodes count from 0.
#pragma once
#include <cstdint>
#include <utility>
#include <vector>

namespace certify {
using Weight = std::int64_t;
using Tour = std::vector<int>;
using NodeSet = std::vector<int>;
using Pair = std::pair<int, int>;
using Neighbours = std::vector<std::vector<int>>;

// A matrix of weights: row i has those from node i. That of a TSP is symmetric.
class Matrix {
 public:
  explicit Matrix(int nodes) : nodes_(nodes), cells_(static_cast<std::size_t>(nodes) * nodes, 0) {}
  int nodes() const { return nodes_; }
  const Weight* row(int i) const { return &cells_[static_cast<std::size_t>(i) * nodes_]; }
  Weight* mutable_row(int i) { return &cells_[static_cast<std::size_t>(i) * nodes_]; }
  Weight operator()(int i, int j) const { return row(i)[j]; }
  void set(int i, int j, Weight weight) {
    cells_[static_cast<std::size_t>(i) * nodes_ + j] = weight;
    cells_[static_cast<std::size_t>(j) * nodes_ + i] = weight;
  }
  void set_arc(int i, int j, Weight weight) { mutable_row(i)[j] = weight; }

 private:
  int nodes_;
  std::vector<Weight> cells_;
};

Weight length_of(const Matrix& weights, const Tour& tour);
std::vector<Pair> edges_of(const Tour& tour);
// Each node with the one that comes next.
std::vector<Pair> arcs_of(const Tour& tour);
Neighbours nearest(const Matrix& weights, int count);
// Adds to each node's list the nearest nodes of each quadrant around its point. The nearest nodes of all may
// lie in one cluster, from which no list then leads to another one. Source: D. Johnson and L. McGeoch,
// Experimental analysis of heuristics for the STSP (2002).
void add_by_quadrants(const Matrix& weights, const std::vector<std::pair<Weight, Weight>>& points, int count,
                      Neighbours& lists);
}  // namespace certify
