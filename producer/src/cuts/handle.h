// The handle of a comb that is looked for.
#pragma once
#include <cstdint>

#include "cuts/cut_pool.h"

namespace certify {
// A handle that changes node by node, with what the solution crosses it.
class Handle {
 public:
  Handle(const Graph& graph, const CutPool& pool)
      : graph_(graph), pool_(pool), inside_(graph.size(), 0), where_(graph.size(), -1) {}
  void flip(int node);
  void clear();
  void set(const NodeSet& nodes);
  bool has(int node) const { return inside_[node] != 0; }
  const NodeSet& nodes() const { return nodes_; }
  double crossings() const { return crossings_; }
  std::uint64_t hash() const { return hash_; }
  // How the hash changes where a node is flipped.
  std::uint64_t hash_change(int node) const {
    return has(node) ? ~pool_.key_of(node) + 1 : pool_.key_of(node);
  }

 private:
  const Graph& graph_;
  const CutPool& pool_;
  std::vector<char> inside_;
  NodeSet nodes_;
  std::vector<int> where_;
  double crossings_ = 0;
  std::uint64_t hash_ = 0;
};
}  // namespace certify
