#include "tree/named_cuts.h"

#include <algorithm>

#include "running/parameters.h"

namespace certify {
std::vector<int> cuts_of(const Numbers& numbers) {
  std::vector<int> cuts;
  cuts.reserve(numbers.multipliers.size());
  for (const auto& [cut, multiplier] : numbers.multipliers) cuts.push_back(cut);
  return cuts;
}

// Cases on other threads may read the marks.
void NamedCuts::begin_change() {
  if (closed_) marks_ = std::make_shared<Marks>(*marks_);
  marks_->resize(pool_.size(), 0);
}

// False where the cut doesn't fit.
bool NamedCuts::add(int cut) {
  if (has(cut)) return true;
  const std::size_t nodes = nodes_of(pool_[cut].sets);
  if (extent_.families + 1 > limits_.families || extent_.nodes + nodes > limits_.nodes) return false;
  extent_.families++;
  extent_.nodes += nodes;
  (*marks_)[cut] = 1;
  return true;
}

bool NamedCuts::is_nearly_full() const {
  const auto nearly = [](std::size_t count, std::size_t shared, std::size_t limit) {
    return static_cast<double>(count - shared) > kTree.part_of_file * static_cast<double>(limit - shared);
  };
  return nearly(extent_.families, shared_.families, limits_.families) ||
         nearly(extent_.nodes, shared_.nodes, limits_.nodes);
}

void NamedCuts::share(const std::vector<int>& cuts, std::size_t parts) {
  begin_change();
  for (const int cut : cuts) add(cut);
  shared_ = extent_;
  limits_.families = shared_.families + (limits_.families - shared_.families) / parts;
  limits_.nodes = shared_.nodes + (limits_.nodes - shared_.nodes) / parts;
  if (limits_.families == shared_.families) close();
}

bool NamedCuts::fit(const Numbers& numbers) const {
  Extent more = extent_;
  for (const auto& [cut, multiplier] : numbers.multipliers) {
    if (multiplier == 0 || has(cut)) continue;
    more.families++;
    more.nodes += nodes_of(pool_[cut].sets);
  }
  return more.families <= limits_.families && more.nodes <= limits_.nodes;
}

void NamedCuts::add(const Numbers& numbers) {
  begin_change();
  for (const auto& [cut, multiplier] : numbers.multipliers) {
    if (multiplier != 0) add(cut);
  }
  if (is_nearly_full()) close();
}

void NamedCuts::fill(const std::map<int, Value>& sums) {
  std::vector<std::pair<Value, int>> sorted;
  sorted.reserve(sums.size());
  for (const auto& [cut, sum] : sums) {
    if (sum > 0) sorted.emplace_back(-sum, cut);
  }
  std::sort(sorted.begin(), sorted.end());
  begin_change();
  for (const auto& [sum, cut] : sorted) add(cut);
}
}  // namespace certify
