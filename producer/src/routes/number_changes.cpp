#include "routes/number_changes.h"

#include <algorithm>
#include <cstdlib>

namespace certify::routes {
std::vector<NumberChange> changes_between(const LeafNumbers& own, const LeafNumbers& other) {
  std::vector<NumberChange> changes;
  for (int v = 1; v < static_cast<int>(own.potentials.size()); v++) {
    changes.push_back({std::abs(own.potentials[v] - other.potentials[v]), v, {}, other.potentials[v]});
  }
  std::map<NodeSet, Weight> multipliers = other.multipliers;
  for (const auto& [set, multiplier] : own.multipliers) multipliers.emplace(set, 0);
  for (const auto& [set, multiplier] : multipliers) {
    const auto found = own.multipliers.find(set);
    const Weight before = found == own.multipliers.end() ? 0 : found->second;
    changes.push_back({std::abs(before - multiplier), 0, set, multiplier});
  }
  std::erase_if(changes, [](const NumberChange& change) { return change.size == 0; });
  std::stable_sort(changes.begin(), changes.end(),
                   [](const NumberChange& a, const NumberChange& b) { return a.size < b.size; });
  return changes;
}

LeafNumbers with_changes(LeafNumbers numbers, const std::vector<NumberChange>& changes, std::size_t count) {
  for (std::size_t k = 0; k < count; k++) {
    const NumberChange& change = changes[k];
    if (change.node > 0) {
      numbers.potentials[change.node] = change.number;
    } else {
      numbers.multipliers[change.set] = change.number;
    }
  }
  std::erase_if(numbers.multipliers, [](const auto& entry) { return entry.second == 0; });
  return numbers;
}
}  // namespace certify::routes
