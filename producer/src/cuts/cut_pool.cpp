#include "cuts/cut_pool.h"

#include <algorithm>

#include "running/random.h"

namespace certify {
namespace {
std::vector<int> listed(const std::vector<NodeSet>& sets) {
  std::vector<int> listed;
  for (const NodeSet& set : sets) {
    listed.push_back(static_cast<int>(set.size()));
    listed.insert(listed.end(), set.begin(), set.end());
  }
  return listed;
}
}  // namespace

ViolationMeter::ViolationMeter(const Graph& graph) : mark_(graph.size(), 0) {
  first_.reserve(graph.size() + 1);
  for (std::size_t v = 0; v < graph.size(); v++) {
    first_.push_back(edges_.size());
    for (const Edge& edge : graph[v]) {
      if (edge.to > static_cast<int>(v)) edges_.push_back(edge);
    }
  }
  first_.push_back(edges_.size());
}

double ViolationMeter::violation(const Cut& cut) {
  double inside = 0;
  for (auto first = cut.listed.begin(); first != cut.listed.end();) {
    const auto last = first + 1 + *first;
    sets_++;
    for (auto v = ++first; v != last; ++v) mark_[*v] = sets_;
    for (; first != last; ++first) {
      for (std::size_t k = first_[*first]; k < first_[*first + 1]; k++) {
        if (mark_[edges_[k].to] == sets_) inside += edges_[k].value;
      }
    }
  }
  return 2 * (inside - cut.most_inside);
}

CutPool::CutPool(int nodes) : nodes_(nodes) {
  Random random(12345);
  for (int v = 0; v < nodes; v++) keys_.push_back(random.next());
}

NodeSet CutPool::smaller_side(NodeSet set) const {
  std::sort(set.begin(), set.end());
  const std::size_t nodes = static_cast<std::size_t>(nodes_);
  if (2 * set.size() < nodes || (2 * set.size() == nodes && set[0] == 0)) return set;
  NodeSet others;
  std::size_t next = 0;
  for (int v = 0; v < nodes_; v++) {
    if (next < set.size() && set[next] == v) {
      next++;
    } else {
      others.push_back(v);
    }
  }
  return others;
}

std::uint64_t CutPool::hash_of(const NodeSet& set) const {
  std::uint64_t hash = 0;
  for (const int v : set) hash += keys_[v];
  return (hash * 0x9E3779B97F4A7C15ull) ^ (hash >> 29);
}

bool CutPool::is_comb(const std::vector<NodeSet>& sets) const {
  if (sets.size() < 4 || sets.size() % 2 != 0) return false;
  std::vector<char> handle(nodes_, 0), tooth(nodes_, 0);
  for (const int v : sets[0]) handle[v] = 1;
  for (std::size_t k = 1; k < sets.size(); k++) {
    int inside = 0, outside = 0;
    for (const int v : sets[k]) {
      if (tooth[v]) return false;
      tooth[v] = 1;
      (handle[v] ? inside : outside)++;
    }
    if (inside == 0 || outside == 0) return false;
  }
  return true;
}

int CutPool::add(CutKind kind, std::vector<NodeSet> sets, int crossings) {
  const bool any = kind == CutKind::kFamily;
  sets[0] = smaller_side(sets[0]);
  for (NodeSet& set : sets) {
    if (any) set = smaller_side(set);
    std::sort(set.begin(), set.end());
  }
  std::sort(sets.begin() + (any ? 0 : 1), sets.end());
  const std::uint64_t hash = hash_of(kind, sets);
  if (const int number = known(hash, kind, sets); number >= 0) return number;
  std::vector<int> list = listed(sets);
  const double nodes = static_cast<double>(list.size() - sets.size());
  by_hash_.emplace(hash, size());
  cuts_.push_back(std::make_shared<const Cut>(
      Cut{kind, std::move(sets), crossings, nodes - crossings / 2.0, std::move(list)}));
  return size() - 1;
}

int CutPool::add(const std::shared_ptr<const Cut>& cut) {
  const std::uint64_t hash = hash_of(cut->kind, cut->sets);
  if (const int number = known(hash, cut->kind, cut->sets); number >= 0) return number;
  by_hash_.emplace(hash, size());
  cuts_.push_back(cut);
  return size() - 1;
}

void CutPool::shrink_to(int size) {
  while (this->size() > size) {
    const Cut& last = *cuts_.back();
    const auto [first, end] = by_hash_.equal_range(hash_of(last.kind, last.sets));
    by_hash_.erase(
        std::find_if(first, end, [&](const auto& entry) { return entry.second == this->size() - 1; }));
    cuts_.pop_back();
  }
}

std::uint64_t CutPool::hash_of(CutKind kind, const std::vector<NodeSet>& sets) const {
  std::uint64_t hash = kind == CutKind::kSubtour ? 0 : 1;
  for (const NodeSet& set : sets) hash = hash * 31 + hash_of(set);
  return hash;
}

// The number of a known cut, or -1.
int CutPool::known(std::uint64_t hash, CutKind kind, const std::vector<NodeSet>& sets) const {
  const auto [first, last] = by_hash_.equal_range(hash);
  for (auto entry = first; entry != last; ++entry) {
    const Cut& cut = *cuts_[entry->second];
    if (cut.kind == kind && cut.sets == sets) return entry->second;
  }
  return -1;
}
}  // namespace certify
