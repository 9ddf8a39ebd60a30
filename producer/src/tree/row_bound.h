// The bound of an ATSP: each node takes the least arc that the decisions allow, of the weights that `tsp
// check` takes. A taken arc is the only one from its first node and the only one to its second.
#pragma once
#include "tree/exact_bound.h"

namespace certify {
class RowBound : public ExactBound {
 public:
  RowBound(const Matrix& weights, const CutPool& pool, Weight scale)
      : ExactBound(weights, pool, scale),
        heads_(weights.nodes()),
        tails_(weights.nodes()),
        barred_(weights.nodes()) {}
  // Very high where no tour obeys the decisions: such a leaf counts for nothing.
  Value value(const Numbers& numbers, const std::vector<Decision>& decisions) override;
  Value likely_value(const Numbers& numbers, const std::vector<Decision>& decisions) override {
    return value(numbers, decisions);
  }

 private:
  void decide(const std::vector<Decision>& decisions);
  bool allowed(int from, int to) const;
  std::optional<std::pair<Weight, int>> least_arc(int from);

  std::vector<std::vector<int>> heads_, tails_,
      barred_;  // of the taken arcs from and to a node; of avoided ones
};
}  // namespace certify
