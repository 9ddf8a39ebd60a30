// The bound of potentials and multipliers under decisions, in whole numbers: what each kind of instance has
// in common. docs/format.md says what the numbers are.
#pragma once
#include <map>
#include <optional>

#include "spanning/surcharges.h"
#include "spanning/value.h"
#include "tree/relaxation.h"

namespace certify {
// The numbers of a leaf.
struct Numbers {
  std::vector<Weight> potentials;
  std::map<int, Weight> multipliers;  // by the number of the cut
};

// Numbers as weights: of each node, of the pairs inside each set of their cuts, and what a relaxation's
// weight is short of the bound by.
struct Weighed {
  std::vector<Weight> own;
  std::vector<int> cuts;  // that of each set
  Value back = 0;
};
// `add(set, weight)` takes each set with a multiplier, and the weight of each pair inside.
template <class Add>
Weighed weigh(const Numbers& numbers, const CutPool& pool, const Add& add) {
  Weighed weighed{numbers.potentials, {}, 0};
  for (const Weight potential : numbers.potentials) weighed.back -= 2 * static_cast<Value>(potential);
  for (const auto& [cut, multiplier] : numbers.multipliers) {
    weighed.back += static_cast<Value>(multiplier) * pool[cut].crossings;
    for (const NodeSet& set : pool[cut].sets) {
      for (const int v : set) weighed.own[v] -= multiplier;
      weighed.cuts.push_back(cut);
      add(set, 2 * multiplier);
    }
  }
  return weighed;
}

class ExactBound {
 public:
  ExactBound(const Matrix& weights, const CutPool& pool, Weight scale);
  virtual ~ExactBound() = default;
  ExactBound(const ExactBound&) = delete;
  ExactBound& operator=(const ExactBound&) = delete;
  Weight scale() const { return scale_; }
  // Very low where the numbers are past their limits.
  virtual Value value(const Numbers& numbers, const std::vector<Decision>& decisions) = 0;
  // The same over the likely edges alone: faster, and never below it.
  virtual Value likely_value(const Numbers& numbers, const std::vector<Decision>& decisions) = 0;
  // Adds likely edges. Those of the relaxations that value() meets join by themselves.
  virtual void add_likely(const std::vector<Pair>&) {}
  // Whether value() is at least this.
  bool reaches(const Numbers& numbers, const std::vector<Decision>& decisions, Value goal);
  Weight bound_of(Value value) const { return rounded_up(value, scale_); }
  // The links of the last relaxation of a tour, a 1-tree or the least arcs, and how often they cross each cut
  // with a multiplier.
  const std::vector<Pair>& links() const { return links_; }
  std::map<int, int> crossings() const;
  static Value nothing() { return kNoValue; }

 protected:
  int nodes() const { return weights_.nodes(); }
  bool keep_limits(const Numbers& numbers) const;
  // Takes numbers. Returns the sum that is added to the weight of the relaxation.
  Value prepare(const Numbers& numbers);
  // The weights of the edges at a node, by the other node, until the next call.
  auto row_of(int node) {
    return [this, node, &extra = surcharges_.of(node)](int to) {
      return scale_ * weights_(node, to) + own_[node] + own_[to] + extra[to];
    };
  }

  const Matrix& weights_;
  const CutPool& pool_;
  Weight scale_;
  std::vector<Pair> links_;
  // of the numbers at hand
  std::vector<Weight> own_;
  std::vector<int> cuts_;  // that of each set
  potentials::Surcharges<Weight> surcharges_;
};
}  // namespace certify
