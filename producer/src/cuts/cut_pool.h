// The cuts that were found: sets that a tour crosses twice, combs, and families of any sets.
//
// A row of a cut is in inner form: the sum over its sets of the values of edges inside. Sets are kept
// as their smaller side where that is allowed.
// Source: M. Grötschel and M. Padberg, On the symmetric travelling salesman problem I (1979).
#pragma once
#include <cstdint>
#include <memory>
#include <unordered_map>

#include "cuts/support.h"

namespace certify {
enum class CutKind { kSubtour, kComb, kFamily };

struct Cut {
  CutKind kind;
  std::vector<NodeSet> sets;  // of a comb the handle first, then its teeth; the nodes are sorted
  int crossings;              // as often a tour crosses the sets at least
  double most_inside;
  std::vector<int> listed;  // each set's size, then its nodes: the whole pool is measured often
};

// How much more often a tour crosses the sets of cuts than a solution. Each round measures the whole pool, so
// the edges are in one array, and sets are marked by their number: with lists and marks that are wiped out it
// took 13 % of the time of uniform 1000 2.
class ViolationMeter {
 public:
  ViolationMeter() = default;
  explicit ViolationMeter(const Graph& graph);
  double violation(const Cut& cut);

 private:
  std::vector<std::size_t> first_;  // of each node's edges to later nodes
  std::vector<Edge> edges_;
  std::vector<int> mark_;
  int sets_ = 0;  // that were measured
};

// Marks of cuts by their numbers. A cut beyond them has none.
using Marks = std::vector<char>;
inline bool is_marked(const Marks& marks, int cut) {
  return static_cast<std::size_t>(cut) < marks.size() && marks[cut] != 0;
}

class CutPool {
 public:
  explicit CutPool(int nodes);
  // The number of a cut. It may be known already.
  int add_subtour(const NodeSet& set) { return add(CutKind::kSubtour, {set}, 2); }
  int add_comb(const std::vector<NodeSet>& sets) {
    return add(CutKind::kComb, sets, 3 * (static_cast<int>(sets.size()) - 1) + 1);
  }
  // Any sets, with how often a tour crosses them at least.
  int add_family(const std::vector<NodeSet>& sets, int crossings) {
    return add(CutKind::kFamily, sets, crossings);
  }
  bool is_comb(const std::vector<NodeSet>& sets) const;
  const Cut& operator[](int cut) const { return *cuts_[cut]; }
  // Adds a cut of another pool. Its number, which may be known already.
  int add(const std::shared_ptr<const Cut>& cut);
  // The cuts from one number up to another one. Cuts are shared, not copied.
  std::vector<std::shared_ptr<const Cut>> part(int first, int last) const {
    return {cuts_.begin() + first, cuts_.begin() + last};
  }
  // Forgets the cuts from a number on.
  void shrink_to(int size);
  int size() const { return static_cast<int>(cuts_.size()); }
  std::uint64_t key_of(int node) const { return keys_[node]; }

 private:
  int add(CutKind kind, std::vector<NodeSet> sets, int crossings);
  NodeSet smaller_side(NodeSet set) const;
  std::uint64_t hash_of(const NodeSet& set) const;
  std::uint64_t hash_of(CutKind kind, const std::vector<NodeSet>& sets) const;
  int known(std::uint64_t hash, CutKind kind, const std::vector<NodeSet>& sets) const;

  int nodes_;
  std::vector<std::uint64_t> keys_;  // random, one of each node
  std::vector<std::shared_ptr<const Cut>> cuts_;
  std::unordered_multimap<std::uint64_t, int> by_hash_;
};
}  // namespace certify
