// The bound of a TSP: a least 1-tree of the weights that `tsp check` takes.
// Source: M. Held and R. Karp, The traveling-salesman problem and minimum spanning trees (1970).
#pragma once
#include <set>

#include "graphs/components.h"
#include "tree/exact_bound.h"

namespace certify {
class TreeBound : public ExactBound {
 public:
  TreeBound(const Matrix& weights, const CutPool& pool, Weight scale)
      : ExactBound(weights, pool, scale), components_(weights.nodes()) {}
  Value value(const Numbers& numbers, const std::vector<Decision>& decisions) override;
  Value likely_value(const Numbers& numbers, const std::vector<Decision>& decisions) override;
  void add_likely(const std::vector<Pair>& edges) override;

 private:
  Value decide(const std::vector<Decision>& decisions);
  Value close();
  Value grow_tree();
  Value grow_likely_tree();
  Weight likely_weight(const Pair& edge) const;

  // the likely edges
  std::vector<Pair> likely_;
  std::set<Pair> known_;
  std::vector<std::pair<Weight, int>> sorted_;
  potentials::Components components_;
};
}  // namespace certify
