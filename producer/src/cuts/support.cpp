#include "cuts/support.h"

#include <algorithm>

namespace certify {
std::vector<NodeSet> components(const Graph& graph, const std::function<bool(double)>& passes) {
  std::vector<char> seen(graph.size(), 0);
  std::vector<NodeSet> parts;
  for (std::size_t start = 0; start < graph.size(); start++) {
    if (seen[start]) continue;
    NodeSet part{static_cast<int>(start)};
    seen[start] = 1;
    for (std::size_t k = 0; k < part.size(); k++) {
      for (const Edge& edge : graph[part[k]]) {
        if (seen[edge.to] || !passes(edge.value)) continue;
        seen[edge.to] = 1;
        part.push_back(edge.to);
      }
    }
    parts.push_back(part);
  }
  return parts;
}

namespace {
class BlockFinder {
 public:
  BlockFinder(const Graph& graph, double above, double below)
      : graph_(graph), above_(above), below_(below), number_(graph.size(), -1), low_(graph.size(), 0) {}
  std::vector<NodeSet> find() {
    for (std::size_t v = 0; v < graph_.size(); v++) {
      if (number_[v] < 0) search(static_cast<int>(v));
    }
    return blocks_;
  }

 private:
  struct Visit {
    int node, parent;
    std::size_t next;
  };
  void enter(int node, int parent) {
    number_[node] = low_[node] = count_++;
    visits_.push_back({node, parent, 0});
  }
  void search(int start) {
    enter(start, -1);
    while (!visits_.empty()) {
      Visit& visit = visits_.back();
      if (visit.next < graph_[visit.node].size()) {
        const Edge& edge = graph_[visit.node][visit.next++];
        if (edge.value > above_ && edge.value < below_ && edge.to != visit.parent)
          follow(visit.node, edge.to);
      } else {
        const Visit left = visit;
        visits_.pop_back();
        if (left.parent >= 0) leave(left.node, left.parent);
      }
    }
  }
  void follow(int node, int to) {
    if (number_[to] < 0) {
      edges_.emplace_back(node, to);
      enter(to, node);
    } else if (number_[to] < number_[node]) {
      edges_.emplace_back(node, to);
      low_[node] = std::min(low_[node], number_[to]);
    }
  }
  void leave(int node, int parent) {
    low_[parent] = std::min(low_[parent], low_[node]);
    if (low_[node] < number_[parent]) return;
    NodeSet block;
    for (Pair edge(-1, -1); edge != Pair(parent, node);) {
      edge = edges_.back();
      edges_.pop_back();
      block.insert(block.end(), {edge.first, edge.second});
    }
    std::sort(block.begin(), block.end());
    block.erase(std::unique(block.begin(), block.end()), block.end());
    if (block.size() >= 3) blocks_.push_back(block);
  }

  const Graph& graph_;
  double above_, below_;
  std::vector<int> number_, low_;
  int count_ = 0;
  std::vector<Visit> visits_;
  std::vector<Pair> edges_;
  std::vector<NodeSet> blocks_;
};
}  // namespace

std::vector<NodeSet> blocks(const Graph& graph, double above, double below) {
  return BlockFinder(graph, above, below).find();
}
}  // namespace certify
