#include "tree/tree_bound.h"

#include <algorithm>
#include <numeric>
#include <utility>

#include "spanning/least_tree.h"

namespace certify {
namespace {
constexpr Weight kMark = 4000000000000000000;  // on and off the weights of decided pairs
}  // namespace

// Takes decisions. Returns the sum that is added to the weight of a tree.
Value TreeBound::decide(const std::vector<Decision>& decisions) {
  Value back = 0;
  for (const Decision& decision : decisions) {
    const auto [i, j] = decision.pair;
    surcharges_.add_pair(i, j, decision.used ? -kMark : kMark);
    if (decision.used) back += kMark;
  }
  return back;
}

// Links node 0 by its two least edges. Returns what they weigh.
Value TreeBound::close() {
  const auto weight_of = row_of(0);
  std::vector<std::pair<Weight, int>> least;
  for (int j = 1; j < nodes(); j++) {
    const std::pair<Weight, int> edge(weight_of(j), j);
    if (least.size() == 2 && edge >= least[1]) continue;
    if (least.size() == 2) least.pop_back();
    least.insert(std::upper_bound(least.begin(), least.end(), edge), edge);
  }
  Value sum = 0;
  for (const auto& [weight, j] : least) {
    sum += weight;
    links_.emplace_back(0, j);
  }
  return sum;
}

// The weight of a least 1-tree: a tree over the nodes 1.. and two edges at node 0.
Value TreeBound::grow_tree() {
  links_.clear();
  Value sum = close();
  std::vector<int> outside(nodes() - 2);
  std::iota(outside.begin(), outside.end(), 2);
  potentials::grow_least_tree<Weight>(
      nodes(), 1, std::move(outside), [&](int node) { return row_of(node); },
      [&](int from, int to, Weight weight) {
        sum += weight;
        links_.emplace_back(from, to);
      });
  return sum;
}

Value TreeBound::value(const Numbers& numbers, const std::vector<Decision>& decisions) {
  Value sum = prepare(numbers);
  if (sum == nothing()) return sum;
  sum += decide(decisions);
  sum += grow_tree();
  add_likely(links_);
  return sum;
}

void TreeBound::add_likely(const std::vector<Pair>& edges) {
  for (const Pair& edge : edges) {
    const Pair sorted = std::minmax(edge.first, edge.second);
    if (known_.insert(sorted).second) likely_.push_back(sorted);
  }
}

Weight TreeBound::likely_weight(const Pair& edge) const {
  const auto [i, j] = edge;
  return scale_ * weights_(i, j) + own_[i] + own_[j] + surcharges_.between(i, j);
}

// The same over the likely edges. Very high where they have no such tree.
Value TreeBound::grow_likely_tree() {
  const std::size_t nodes = own_.size();
  sorted_.clear();
  for (std::size_t k = 0; k < likely_.size(); k++) {
    sorted_.emplace_back(likely_weight(likely_[k]), static_cast<int>(k));
  }
  std::sort(sorted_.begin(), sorted_.end());
  components_.reset();
  links_.clear();
  Value sum = 0;
  int at_first = 0;
  for (const auto& [weight, place] : sorted_) {
    const auto [i, j] = likely_[place];
    if (i == 0) {
      if (at_first == 2) continue;
      at_first++;
    } else if (!components_.join(i, j)) {
      continue;
    }
    sum += weight;
    links_.emplace_back(i, j);
    if (links_.size() == nodes && at_first == 2) return sum;
  }
  return -nothing();
}

Value TreeBound::likely_value(const Numbers& numbers, const std::vector<Decision>& decisions) {
  for (const Decision& decision : decisions) add_likely({decision.pair});
  Value sum = prepare(numbers);
  if (sum == nothing()) return sum;
  sum += decide(decisions);
  return sum + grow_likely_tree();
}
}  // namespace certify
