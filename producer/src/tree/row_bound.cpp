#include "tree/row_bound.h"

#include <algorithm>

namespace certify {
void RowBound::decide(const std::vector<Decision>& decisions) {
  for (auto* lists : {&heads_, &tails_, &barred_}) {
    for (std::vector<int>& list : *lists) list.clear();
  }
  for (const Decision& decision : decisions) {
    const auto [from, to] = decision.pair;
    if (decision.used) {
      heads_[from].push_back(to);
      tails_[to].push_back(from);
    } else {
      barred_[from].push_back(to);
    }
  }
}

bool RowBound::allowed(int from, int to) const {
  const auto all = [](const std::vector<int>& list, int node) {
    return std::all_of(list.begin(), list.end(), [&](int each) { return each == node; });
  };
  const std::vector<int>& barred = barred_[from];
  return all(heads_[from], to) && all(tails_[to], from) &&
         std::find(barred.begin(), barred.end(), to) == barred.end();
}

// The weight of the least allowed arc from a node, and where it leads to.
std::optional<std::pair<Weight, int>> RowBound::least_arc(int from) {
  std::optional<std::pair<Weight, int>> least;
  const auto weight_of = row_of(from);
  for (int to = 0; to < nodes(); to++) {
    if (to == from) continue;
    const Weight weight = weight_of(to);
    if (least && weight >= least->first) continue;
    if (allowed(from, to)) least.emplace(weight, to);
  }
  return least;
}

Value RowBound::value(const Numbers& numbers, const std::vector<Decision>& decisions) {
  Value sum = prepare(numbers);
  if (sum == nothing()) return sum;
  decide(decisions);
  links_.clear();
  for (int from = 0; from < nodes(); from++) {
    const auto least = least_arc(from);
    if (!least) return -nothing();
    sum += least->first;
    links_.emplace_back(from, least->second);
  }
  return sum;
}
}  // namespace certify
