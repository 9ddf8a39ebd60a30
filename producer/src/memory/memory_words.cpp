#include "memory/memory_words.h"

#include <algorithm>

#include "running/refusal.h"

namespace certify::routes {
namespace {
constexpr int kRows = Bits::kMost;  // things from there on are rows

Word lowest(int count) { return count >= 64 ? ~Word{0} : (Word{1} << count) - 1; }
}  // namespace

template <typename W>
MemoryWords<W>::MemoryWords(const Memory& memory, const std::map<NodeSet, W>& multipliers)
    : nodes_(static_cast<int>(memory.near.size())),
      remembered_(nodes_, 0),
      toggled_(nodes_, 0),
      costs_(static_cast<std::size_t>(nodes_) * kMost, 0),
      steps_(static_cast<std::size_t>(nodes_) * nodes_) {
  Things things{std::vector<std::vector<int>>(nodes_), {}};
  for (int v = 0; v < nodes_; v++) {
    memory.near[v].each([&](int u) { things.kept[v].push_back(u); });
    remembered_[v] = lowest(memory.near[v].count());
  }
  std::vector<const SubsetRow*> rows;
  for (const SubsetRow& row : memory.rows) {
    const auto found = multipliers.find(row.set);
    const W cost = found == multipliers.end() ? 0 : found->second;
    row.keepers.each([&](int v) {
      std::vector<int>& kept = things.kept[v];
      if (kept.size() >= kMost) throw Refusal("--memory: a customer keeps too much");
      const std::size_t place = kept.size();
      kept.push_back(kRows + static_cast<int>(rows.size()));
      costs_[static_cast<std::size_t>(v) * kMost + place] = cost;
      if (row.inside.has(v)) toggled_[v] |= Word{1} << place;
    });
    rows.push_back(&row);
  }
  things.place_of.assign(nodes_, std::vector<signed char>(kRows + rows.size(), -1));
  for (int v = 0; v < nodes_; v++) {
    for (std::size_t k = 0; k < things.kept[v].size(); k++) {
      things.place_of[v][things.kept[v][k]] = static_cast<signed char>(k);
    }
  }
  for (int v = 1; v < nodes_; v++) {
    for (int to = 1; to < nodes_; to++) list_step(things, rows, v, to);
  }
}

template <typename W>
void MemoryWords<W>::list_step(const Things& things, const std::vector<const SubsetRow*>& rows, int customer,
                               int to) {
  Step& own = steps_[static_cast<std::size_t>(customer) * nodes_ + to];
  own.places = places_.size();
  const std::vector<signed char>& next = things.place_of[to];
  if (next[customer] >= 0) own.last = Word{1} << next[customer];
  for (std::size_t k = 0; k < things.kept[customer].size(); k++) {
    const int thing = things.kept[customer][k];
    const Word bit = Word{1} << k;
    places_.push_back(static_cast<unsigned char>(std::max<int>(0, next[thing])));
    if (next[thing] >= 0) own.passed |= bit;
    if (thing == to) own.forbidden = bit;
    if (thing >= kRows && rows[thing - kRows]->inside.has(to)) own.paid |= bit;
  }
}

template class MemoryWords<double>;
template class MemoryWords<Weight>;
}  // namespace certify::routes
