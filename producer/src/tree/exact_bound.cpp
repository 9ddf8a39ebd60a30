#include "tree/exact_bound.h"

#include <algorithm>
#include <iterator>
#include <utility>

namespace certify {
namespace {
constexpr Weight kMostPotential = 1000000000000000;
constexpr Value kMostMultipliers = 900000000000000000;  // each as often as two nodes are separated
}  // namespace

ExactBound::ExactBound(const Matrix& weights, const CutPool& pool, Weight scale)
    : weights_(weights), pool_(pool), scale_(scale), surcharges_(weights.nodes()) {}

// Whether numbers keep the limits of a file.
bool ExactBound::keep_limits(const Numbers& numbers) const {
  for (const Weight potential : numbers.potentials) {
    if (potential > kMostPotential || potential < -kMostPotential) return false;
  }
  Value sum = 0;
  for (const auto& [cut, multiplier] : numbers.multipliers) {
    if (multiplier < 0) return false;
    const Cut& own = pool_[cut];
    sum += static_cast<Value>(multiplier) *
           (own.kind == CutKind::kFamily ? static_cast<int>(own.sets.size()) : 3);
  }
  return sum <= kMostMultipliers;
}

Value ExactBound::prepare(const Numbers& numbers) {
  if (!keep_limits(numbers)) return nothing();
  surcharges_.clear();
  Weighed weighed =
      weigh(numbers, pool_, [&](const NodeSet& set, Weight weight) { surcharges_.add(set, weight); });
  own_ = std::move(weighed.own);
  cuts_ = std::move(weighed.cuts);
  return weighed.back;
}

bool ExactBound::reaches(const Numbers& numbers, const std::vector<Decision>& decisions, Value goal) {
  return likely_value(numbers, decisions) >= goal && value(numbers, decisions) >= goal;
}

std::map<int, int> ExactBound::crossings() const {
  std::map<int, int> crossings;
  for (const int cut : cuts_) crossings.emplace(cut, 0);
  std::vector<int> crossed;
  for (const auto& [i, j] : links_) {
    const std::vector<int>& of_i = surcharges_.sets_of(i);
    const std::vector<int>& of_j = surcharges_.sets_of(j);
    crossed.clear();
    std::set_symmetric_difference(of_i.begin(), of_i.end(), of_j.begin(), of_j.end(),
                                  std::back_inserter(crossed));
    for (const int set : crossed) crossings[cuts_[set]]++;
  }
  return crossings;
}
}  // namespace certify
