#include "memory/memory.h"

#include <algorithm>

namespace certify::routes {
SubsetRow row_of(const NodeSet& set) {
  SubsetRow row{set, {}, {}};
  for (const int v : set) row.inside.add(v);
  row.keepers = row.inside;
  return row;
}

int Memory::kept_at(int customer) const {
  return near[customer].count() +
         static_cast<int>(std::count_if(rows.begin(), rows.end(),
                                        [&](const SubsetRow& row) { return row.keepers.has(customer); }));
}

int Memory::place_of(const NodeSet& set) const {
  const auto found =
      std::find_if(rows.begin(), rows.end(), [&](const SubsetRow& row) { return row.set == set; });
  return found == rows.end() ? -1 : static_cast<int>(found - rows.begin());
}

void Memory::trim(int most, const std::map<NodeSet, double>& multipliers) {
  std::vector<int> spare;  // of each customer, less than 0 where it keeps too much
  for (std::size_t v = 0; v < near.size(); v++) spare.push_back(most - kept_at(static_cast<int>(v)));
  std::vector<std::pair<double, SubsetRow*>> order;
  for (SubsetRow& row : rows) {
    const auto found = multipliers.find(row.set);
    order.emplace_back(found == multipliers.end() ? 0 : found->second, &row);
  }
  std::stable_sort(order.begin(), order.end(),
                   [](const auto& a, const auto& b) { return a.first < b.first; });
  const auto forget = [&](Bits& kept, int what, int v) {
    if (spare[v] >= 0) return;
    kept.remove(what);
    spare[v]++;
  };
  for (const auto& [multiplier, row] : order) {
    row->keepers.without(row->inside).each([&, row = row](int v) { forget(row->keepers, v, v); });
  }
  for (int v = 0; v < static_cast<int>(near.size()); v++) {
    const Bits all = near[v];
    all.each([&](int u) { forget(near[v], u, v); });
  }
}

Memory nearest_memory(const CvrpInstance& instance, int near) {
  Memory memory{std::vector<Bits>(instance.nodes())};
  for (const int v : instance.customers()) {
    std::vector<std::pair<Weight, int>> others;
    for (const int u : instance.customers()) {
      if (u != v) others.emplace_back(instance.costs(u, v) + instance.costs(v, u), u);
    }
    std::sort(others.begin(), others.end());
    for (std::size_t k = 0; k < std::min(others.size(), static_cast<std::size_t>(near)); k++) {
      memory.near[v].add(others[k].second);
    }
  }
  return memory;
}

int payments(const SubsetRow& row, const Route& run) {
  int count = 0;
  bool open = false;
  for (const int v : run) {
    const bool inside = row.inside.has(v);
    count += static_cast<int>(open && inside);
    open = row.keepers.has(v) && open != inside;
  }
  return count;
}

bool is_run(const Memory& memory, const Route& run) {
  Bits known;
  int last = 0;
  for (const int v : run) {
    if (v == last || known.has(v)) return false;
    if (last != 0) known.add(last);
    known = known & memory.near[v];
    last = v;
  }
  return true;
}
}  // namespace certify::routes
