// The exact bound of a leaf for routes, by a least walk, potentials and multipliers of sets.
//
// docs/format.md says what the numbers are.
#pragma once
#include "routes/customer_sets.h"
#include "routes/loads.h"
#include "tree/exact_bound.h"

namespace certify::routes {
// Potentials of nodes, and multipliers of sets: duals, or numbers of a leaf by the sets themselves.
template <typename W>
struct SetNumbers {
  std::vector<W> potentials;
  std::map<NodeSet, W> multipliers;
};
using Duals = SetNumbers<double>;
using LeafNumbers = SetNumbers<Weight>;

// The largest absolute value of a cost, at least 1.
Weight largest_cost(const CvrpInstance& instance);
// Duals are in a unit, in which no cost is too large for the tolerance of Clp.
double unit_of_costs(const CvrpInstance& instance);
Duals duals_of(const CvrpInstance& instance, const LeafNumbers& numbers, Weight scale);

// What potentials and multipliers give back: each customer is visited once, and sets are crossed as often as
// decisions leave it.
Value given_back(const CvrpInstance& instance, const LeafNumbers& numbers, const std::vector<Limit>& limits);

// The weights of links, costs times a scale.
template <typename W>
Links<W> links_under(const CvrpInstance& instance, const SetNumbers<W>& numbers, W scale);

class WalkBound {
 public:
  WalkBound(const CvrpInstance& instance, const Loads& loads, Weight scale);
  Weight scale() const { return scale_; }
  // The bound times the scale: very low where the numbers are past their limits, and very high where there is
  // no walk.
  Value value(const LeafNumbers& numbers, const std::vector<Limit>& limits);
  // Duals as multiples of a grid: weights are rounded up, and then the multiplier of all customers takes what
  // the least walk weighs above 0 or below.
  LeafNumbers rounded(const Duals& duals, Weight grid);
  // The same numbers, but for that multiplier.
  LeafNumbers balanced(LeafNumbers numbers, Weight grid);
  Weight bound_of(Value value) const { return rounded_up(value, scale_); }
  static Value nothing() { return kNoValue; }

 private:
  std::optional<Weight> least_walk(const LeafNumbers& numbers);

  const CvrpInstance& instance_;
  const Loads& loads_;
  const Weight scale_;
  const double unit_;
  WalkTable<Weight> table_;
};

// A scale by which all numbers stay within their limits.
Weight scale_for(const CvrpInstance& instance);
}  // namespace certify::routes
