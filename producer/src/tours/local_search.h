// Shortens a tour by 2-opt and Or-opt over neighbour lists, until neither helps.
// Sources: G. A. Croes (1958); I. Or (1976); J. L. Bentley, Fast algorithms for geometric TSPs (1992).
#pragma once
#include "graphs/tour.h"

namespace certify {
// A matrix some of whose costs are lowered. The matrix is shared, not copied.
class LoweredCosts {
 public:
  explicit LoweredCosts(const Matrix& costs) : costs_(costs), lowered_(costs.nodes()) {}
  void lower(int i, int j, Weight by) {
    lowered_[i].emplace_back(j, by);
    lowered_[j].emplace_back(i, by);
  }
  int nodes() const { return costs_.nodes(); }
  Weight operator()(int i, int j) const {
    Weight cost = costs_(i, j);
    for (const auto& [to, by] : lowered_[i]) cost -= to == j ? by : 0;
    return cost;
  }

 private:
  const Matrix& costs_;
  std::vector<std::vector<std::pair<int, Weight>>> lowered_;
};

// Costs are a matrix or lowered ones.
template <typename Costs>
class LocalSearch {
 public:
  LocalSearch(const Costs& costs, const Neighbours& near)
      : costs_(costs), near_(near), place_(costs.nodes()) {}
  void improve(Tour& tour);

 private:
  int beside(int node, int step) const;
  void reverse(int from, int to);
  void exchange(int a, int b, int c, int d);
  void push(int node);
  bool two_opt(int node, int step);
  bool or_opt(int node, int step, int size);
  bool insert(const int (&run)[4], int near, int next, bool reversed);

  const Costs& costs_;
  const Neighbours& near_;
  Tour tour_;
  std::vector<int> place_;
  std::vector<int> queue_;
  std::vector<char> queued_;
};
}  // namespace certify
