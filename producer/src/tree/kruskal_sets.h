// Sets of nodes that Kruskal's method meets while it takes edges in order. A linear program over trees needs
// rows of some of them: a set of k nodes has at most k - 1 edges.
// Source: J. Kruskal, On the shortest spanning subtree of a graph (1956).
#pragma once
#include <vector>

#include "cuts/cut_pool.h"
#include "cuts/support.h"

namespace certify {
// Components, with their nodes.
class JoinedSets {
 public:
  explicit JoinedSets(std::size_t nodes);
  int of(int node) const { return component_[node]; }
  const NodeSet& nodes(int component) const { return nodes_[component]; }
  // The smaller one becomes a part of the other one, whose number it is.
  void join(int from, int into);

 private:
  std::vector<int> component_;
  std::vector<NodeSet> nodes_;
};

// Sets with more edges of a solution than a tree has.
class ViolatedSets {
 public:
  explicit ViolatedSets(const Graph& support);
  // The next edge.
  void take(const Pair& edge);
  std::vector<NodeSet>& sets() { return sets_; }

 private:
  const Graph& support_;
  JoinedSets components_;
  std::vector<double> inside_;
  std::vector<NodeSet> sets_;
};

// Sets whose edges all weigh less than those that leave them, by a gap at least.
class LevelSets {
 public:
  LevelSets(int nodes, double gap);
  // The next edge, by its weight.
  void take(const Pair& edge, double weight);
  std::vector<NodeSet>& sets() { return sets_; }

 private:
  double gap_;
  JoinedSets components_;
  std::vector<double> heaviest_;  // edge inside of each component
  std::vector<NodeSet> sets_;
};

// Whether the edges of a solution inside are more than those of a tree.
bool has_many_edges(const Graph& support, const NodeSet& set);
}  // namespace certify
