#include "points/groups.h"

#include <algorithm>
#include <cmath>
#include <numeric>

#include "graphs/components.h"

namespace potentials {
namespace {
class Linkage {
 public:
  explicit Linkage(int nodes) : components_(nodes), levels_(nodes, 0), tops_(nodes) {
    groups_.of_node.assign(nodes, -1);
    for (int i = 0; i < nodes; i++) tops_[i] = {i};
  }

  // Edges come in the order of their lengths.
  void link(int a, int b, int level, double length) {
    a = components_.root(a);
    b = components_.root(b);
    if (a == b) return;
    for (const int x : {a, b}) {
      if (level > levels_[x] && tops_[x].size() > 1) close(x, length);
    }
    components_.join(a, b);
    const int root = components_.root(a);
    std::vector<int>& from = tops_[root == a ? b : a];
    std::vector<int>& to = tops_[root];
    if (from.size() > to.size()) from.swap(to);
    to.insert(to.end(), from.begin(), from.end());
    from = {};
    levels_[root] = level;
  }
  Groups take() { return std::move(groups_); }

 private:
  // Makes a group of a component.
  void close(int root, double length) {
    const int group = groups_.size();
    for (const int top : tops_[root]) (top >= 0 ? groups_.of_node[top] : groups_.parents[~top]) = group;
    groups_.parents.push_back(-1);
    groups_.lengths.push_back(length);
    tops_[root] = {~group};
  }

  Groups groups_;
  Components components_;
  std::vector<int> levels_;  // of each component, by its root
  std::vector<std::vector<int>>
      tops_;  // its nodes (as they are) and groups (as ~group) that have no parent yet
};
}  // namespace

Groups groups_of(const Problem& problem, std::vector<Edge> tree, double least) {
  std::stable_sort(tree.begin(), tree.end(), [](const Edge& s, const Edge& t) { return s.cost < t.cost; });
  Linkage linkage(problem.nodes());
  for (const Edge& edge : tree) {
    const int level = edge.cost <= least ? 0 : 1 + static_cast<int>(std::log2(edge.cost / least));
    linkage.link(edge.a, edge.b, level, edge.cost);
  }
  return linkage.take();
}
}  // namespace potentials
