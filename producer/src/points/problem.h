// The nodes of an instance of TYPE TSP, with costs between them and fixed edges.
//
// Points are renumbered in the order of a k-d tree, so that near nodes have near numbers. `original` leads
// back.
#pragma once
#include <array>
#include <memory>
#include <optional>
#include <vector>

#include "graphs/tour.h"
#include "points/points.h"
#include "points/searches.h"

namespace potentials {
using certify::Matrix;
using certify::Tour;

// A pair of nodes, with its cost less the base of the costs.
struct Edge {
  int a, b;
  float cost;
};

class Problem {
 public:
  // Fixed pairs are of the nodes as they are numbered in the file. Throws Refusal where no tour has them all.
  Problem(Points points, const std::vector<certify::Pair>& fixed);
  // A symmetric matrix.
  Problem(Matrix matrix, const std::vector<certify::Pair>& fixed);
  Problem(const Problem&) = delete;
  Problem& operator=(const Problem&) = delete;

  int nodes() const { return static_cast<int>(original_.size()); }
  double cost(int i, int j) const {
    return matrix_ ? static_cast<double>((*matrix_)(i, j)) : points_.cost(i, j);
  }
  Edge edge(int i, int j) const {
    return {std::min(i, j), std::max(i, j), static_cast<float>(cost(i, j) - base_)};
  }
  // A number that no cost is below: 0 for points.
  double base() const { return base_; }
  const Matrix* matrix() const { return matrix_ ? &*matrix_ : nullptr; }
  // Empty where there is a matrix.
  const Points& points() const { return points_; }
  Searches& searches() const { return *searches_; }
  // The node whose two edges close a 1-tree: node 1 of the file.
  int special() const { return special_; }
  bool is_fixed(int i, int j) const {
    return !partners_.empty() && (partners_[i][0] == j || partners_[i][1] == j);
  }
  // The fixed pairs, each once.
  const std::vector<certify::Pair>& fixed() const { return fixed_; }
  const std::vector<int>& original() const { return original_; }
  // Tours with the numbers of the file, and with those of this class.
  Tour outward(const Tour& tour) const;
  Tour inward(const Tour& tour) const;
  double length(const Tour& tour) const;
  // Whether a tour uses all fixed edges.
  bool allows(const Tour& tour) const;

 private:
  void fix(const std::vector<certify::Pair>& fixed);
  void refuse_cycles() const;

  Points points_;
  std::optional<Matrix> matrix_;
  std::vector<int> original_, places_;
  std::unique_ptr<Searches> searches_;
  std::vector<certify::Pair> fixed_;
  std::vector<std::array<int, 2>> partners_;  // of fixed pairs, -1 where there is none; empty without any
  int special_ = 0;
  double base_ = 0;
};
}  // namespace potentials
