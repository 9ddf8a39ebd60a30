#include "sparse/scan_cuts.h"

#include <algorithm>
#include <utility>

#include "graphs/components.h"

namespace sparse {
namespace {
using certify::Graph;
using certify::NodeSet;
using certify::Pair;

class ScanCuts {
 public:
  ScanCuts(const Graph& graph, double least_violation)
      : least_(2 - least_violation), graph_(graph), next_(graph.size(), -1) {
    for (int v = 0; v < static_cast<int>(graph.size()); v++) chains_.push_back({v, v});
  }

  std::vector<NodeSet> find() {
    contract_surely();
    while (graph_.size() > 2) {
      scan();
      contract();
      contract_surely();
    }
    return std::move(cuts_);
  }

 private:
  void contract_surely() {
    do {
      while (contract_whole_edges()) {
      }
    } while (contract_triangles());
  }

  // Edges of 1 or more: another set is crossed no more often. Whether there were any.
  bool contract_whole_edges() {
    joins_.clear();
    for (std::size_t v = 0; v < graph_.size(); v++) {
      for (const certify::Edge& edge : graph_[v]) {
        if (edge.value > 1 - 1e-6) joins_.emplace_back(v, edge.to);
      }
    }
    if (joins_.empty() || graph_.size() <= 2) return false;
    contract();
    return true;
  }

  // An edge where triangles have at least half of the crossings of each of its ends: of a set that separates
  // them one end can change sides, and it is crossed no more often. Each node is in one such edge at most, so
  // that its own edges are still those that were looked at. Whether there were any.
  bool contract_triangles() {
    joins_.clear();
    if (graph_.size() <= 2) return false;
    std::vector<double> halves(graph_.size(), -1e-6);
    for (std::size_t v = 0; v < graph_.size(); v++) {
      for (const certify::Edge& edge : graph_[v]) halves[v] += edge.value / 2;
    }
    std::vector<double> values(graph_.size(), 0);
    std::vector<char> joined(graph_.size(), 0);
    for (int v = 0; v < static_cast<int>(graph_.size()); v++) {
      if (joined[v] != 0) continue;
      for (const certify::Edge& edge : graph_[v]) values[edge.to] = edge.value;
      const int other = triangle_end(v, halves, values, joined);
      for (const certify::Edge& edge : graph_[v]) values[edge.to] = 0;
      if (other < 0) continue;
      joined[v] = joined[other] = 1;
      joins_.emplace_back(v, other);
    }
    if (joins_.empty()) return false;
    contract();
    return true;
  }

  // The other end of such an edge of a node, or -1. `values` are of the node's edges.
  int triangle_end(int v, const std::vector<double>& halves, const std::vector<double>& values,
                   const std::vector<char>& joined) const {
    for (const auto& [other, value] : graph_[v]) {
      if (joined[other] != 0) continue;
      for (const auto& [third, from_other] : graph_[other]) {
        if (values[third] > 0 && value + values[third] >= halves[v] && value + from_other >= halves[other])
          return other;
      }
    }
    return -1;
  }

  // Visits the node that the visited ones lead to most. An edge to a node that is then as near as a small cut
  // is large joins its ends. So do the last two nodes: the last one is a cut, which is known.
  void scan() {
    joins_.clear();
    std::vector<double> key(graph_.size(), 0);
    std::vector<char> done(graph_.size(), 0);
    std::vector<std::pair<double, int>> heap{{0, 0}};
    int last = 0;
    int before = 0;
    while (!heap.empty()) {
      std::pop_heap(heap.begin(), heap.end());
      const auto [nearness, v] = heap.back();
      heap.pop_back();
      if (done[v] != 0 || nearness < key[v] - 1e-12) continue;
      done[v] = 1;
      before = last;
      last = v;
      for (const auto& [to, value] : graph_[v]) {
        if (done[to] != 0) continue;
        key[to] += value;
        if (key[to] >= least_) joins_.emplace_back(v, to);
        heap.emplace_back(key[to], to);
        std::push_heap(heap.begin(), heap.end());
      }
    }
    joins_.emplace_back(before, last);
  }

  // Contracts what joins, and notes the new nodes that are crossed too little.
  void contract() {
    const std::vector<int> place = join_chains();
    std::vector<NodeSet> parts(chains_.size());
    for (int v = 0; v < static_cast<int>(graph_.size()); v++) parts[place[v]].push_back(v);
    Graph graph(parts.size());
    std::vector<double> values(parts.size(), 0);
    for (std::size_t node = 0; node < parts.size(); node++) {
      const double crossing = join_edges(parts[node], place, values, graph[node]);
      if (parts[node].size() > 1 && crossing < least_) cuts_.push_back(members_of(chains_[node]));
    }
    graph_ = std::move(graph);
  }

  // The first and the last of the nodes that a node stands for: each leads to the next.
  // So nodes are joined in one step, however many they stand for.
  struct Chain {
    int first, last;
  };

  NodeSet members_of(const Chain& chain) const {
    NodeSet members;
    for (int v = chain.first; v >= 0; v = next_[v]) members.push_back(v);
    return members;
  }

  // Which new node each node becomes a part of. Chains are those of the new nodes from here on.
  std::vector<int> join_chains() {
    const int nodes = static_cast<int>(graph_.size());
    potentials::Components joined(nodes);
    for (const auto& [a, b] : joins_) joined.join(a, b);
    std::vector<int> place(nodes);
    std::vector<Chain> chains;
    for (int v = 0; v < nodes; v++) {
      const int root = joined.root(v);  // the least node of its component
      if (root == v) {
        place[v] = static_cast<int>(chains.size());
        chains.push_back(chains_[v]);
        continue;
      }
      place[v] = place[root];
      Chain& into = chains[place[root]];
      next_[into.last] = chains_[v].first;
      into.last = chains_[v].last;
    }
    chains_ = std::move(chains);
    return place;
  }

  // The edges of a new node with these parts, and their sum. `values` are 0 before and after.
  double join_edges(const NodeSet& parts, const std::vector<int>& place, std::vector<double>& values,
                    std::vector<certify::Edge>& edges) const {
    double sum = 0;
    for (const int v : parts) {
      for (const auto& [to, value] : graph_[v]) {
        const int other = place[to];
        if (other == place[v]) continue;
        if (values[other] == 0) edges.push_back({other, 0});
        values[other] += value;
        sum += value;
      }
    }
    for (certify::Edge& edge : edges) edge.value = std::exchange(values[edge.to], 0);
    return sum;
  }

  double least_;
  Graph graph_;
  std::vector<Chain> chains_;  // of each node
  std::vector<int> next_;      // in the chain of each node that was given
  std::vector<Pair> joins_;
  std::vector<NodeSet> cuts_;
};
}  // namespace

std::vector<NodeSet> small_cuts(const Graph& graph, double least_violation) {
  std::vector<NodeSet> parts = certify::components(graph, [](double value) { return value > 1e-7; });
  if (parts.size() > 1) return parts;
  return ScanCuts(graph, least_violation).find();
}
}  // namespace sparse
