#include "cuts/subtours.h"

#include <algorithm>
#include <map>
#include <optional>

#include "running/parameters.h"

namespace certify {
namespace {
class MinimumCuts {
 public:
  MinimumCuts(const Graph& graph, double least_violation)
      : least_(2 - least_violation), links_(graph.size()), members_(graph.size()), whole_(graph.size(), 1) {
    for (std::size_t v = 0; v < graph.size(); v++) {
      members_[v] = {static_cast<int>(v)};
      for (const Edge& edge : graph[v]) links_[v][edge.to] += edge.value;
    }
  }
  std::vector<NodeSet> find() {
    shrink_whole_edges();
    std::vector<int> active = remaining();
    while (active.size() > 2 && cuts_.size() < kSeparation.most_subtours) {
      const std::optional<Pair> last = phase(active);
      if (!last) break;
      note_if_small(last->second);
      merge(last->first, last->second);
      active = remaining();
    }
    return cuts_;
  }

 private:
  std::vector<int> remaining() const {
    std::vector<int> nodes;
    for (std::size_t v = 0; v < links_.size(); v++) {
      if (whole_[v]) nodes.push_back(static_cast<int>(v));
    }
    return nodes;
  }
  void note_if_small(int v) {
    double crossing = 0;
    for (const auto& [to, value] : links_[v]) crossing += value;
    if (crossing < least_) cuts_.push_back(members_[v]);
  }
  // Merges two nodes into one of them, which is returned.
  int merge(int a, int b) {
    if (links_[a].size() < links_[b].size()) std::swap(a, b);
    for (const auto& [to, value] : links_[b]) {
      if (to == a) continue;
      links_[a][to] += value;
      links_[to][a] += value;
      links_[to].erase(b);
    }
    links_[a].erase(b);
    links_[b].clear();
    whole_[b] = 0;
    members_[a].insert(members_[a].end(), members_[b].begin(), members_[b].end());
    members_[b].clear();
    note_if_small(a);
    return a;
  }
  void shrink_whole_edges() {
    std::vector<int> queue = remaining();
    while (!queue.empty()) {
      const int v = queue.back();
      queue.pop_back();
      if (!whole_[v]) continue;
      for (const auto& [to, value] : links_[v]) {
        if (value < 1 - 1e-6) continue;
        queue.push_back(merge(v, to));
        break;
      }
    }
  }
  // The last two nodes of a maximum adjacency order, where the nodes are connected.
  std::optional<Pair> phase(const std::vector<int>& active) {
    std::vector<double> key(links_.size(), 0);
    std::vector<char> done(links_.size(), 0);
    std::vector<std::pair<double, int>> heap{{0, active[0]}};
    int last = -1, before = -1;
    std::size_t count = 0;
    while (!heap.empty()) {
      std::pop_heap(heap.begin(), heap.end());
      const auto [nearness, v] = heap.back();
      heap.pop_back();
      if (done[v] || nearness < key[v] - 1e-12) continue;
      done[v] = 1;
      count++;
      before = last;
      last = v;
      for (const auto& [to, value] : links_[v]) {
        if (done[to]) continue;
        key[to] += value;
        heap.emplace_back(key[to], to);
        std::push_heap(heap.begin(), heap.end());
      }
    }
    if (count < active.size()) return std::nullopt;
    return Pair(before, last);
  }

  double least_;
  std::vector<std::map<int, double>> links_;
  std::vector<NodeSet> members_;
  std::vector<char> whole_;  // not merged into another one
  std::vector<NodeSet> cuts_;
};
}  // namespace

std::vector<NodeSet> crossed_too_little(const Graph& graph, double least_violation) {
  std::vector<NodeSet> parts = components(graph, [](double value) { return value > 1e-7; });
  if (parts.size() > 1) return parts;
  return MinimumCuts(graph, least_violation).find();
}
}  // namespace certify
