#include "tree/kruskal_sets.h"

#include <algorithm>
#include <limits>
#include <numeric>
#include <utility>

namespace certify {
namespace {
constexpr double kLeastViolation = 1e-3;
constexpr std::size_t kFewNodes = 3;  // of two, the edge between them has a bound already

bool is_more_than_tree(double edges, std::size_t nodes) {
  return edges > static_cast<double>(nodes) - 1 + kLeastViolation;
}
}  // namespace

JoinedSets::JoinedSets(std::size_t nodes) : component_(nodes), nodes_(nodes) {
  std::iota(component_.begin(), component_.end(), 0);
  for (std::size_t v = 0; v < nodes; v++) nodes_[v] = {static_cast<int>(v)};
}

void JoinedSets::join(int from, int into) {
  for (const int v : nodes_[from]) component_[v] = into;
  nodes_[into].insert(nodes_[into].end(), nodes_[from].begin(), nodes_[from].end());
  nodes_[from].clear();
}

ViolatedSets::ViolatedSets(const Graph& support)
    : support_(support), components_(support.size()), inside_(support.size(), 0) {}

void ViolatedSets::take(const Pair& edge) {
  int a = components_.of(edge.first), b = components_.of(edge.second);
  if (a == b) return;
  if (components_.nodes(a).size() < components_.nodes(b).size()) std::swap(a, b);
  double between = 0;
  for (const int v : components_.nodes(b)) {
    for (const auto& [to, value] : support_[v]) between += components_.of(to) == a ? value : 0;
  }
  components_.join(b, a);
  inside_[a] += inside_[b] + between;
  if (is_more_than_tree(inside_[a], components_.nodes(a).size())) sets_.push_back(components_.nodes(a));
}

LevelSets::LevelSets(int nodes, double gap)
    : gap_(gap), components_(nodes), heaviest_(nodes, -std::numeric_limits<double>::infinity()) {}

void LevelSets::take(const Pair& edge, double weight) {
  int a = components_.of(edge.first), b = components_.of(edge.second);
  if (a == b) return;
  for (const int component : {a, b}) {
    const NodeSet& nodes = components_.nodes(component);
    if (nodes.size() >= kFewNodes && weight >= heaviest_[component] + gap_) sets_.push_back(nodes);
  }
  if (components_.nodes(a).size() < components_.nodes(b).size()) std::swap(a, b);
  components_.join(b, a);
  heaviest_[a] = weight;
}

bool has_many_edges(const Graph& support, const NodeSet& set) {
  const auto has = [&](int node) { return std::binary_search(set.begin(), set.end(), node); };
  double inside = 0;
  for (const int v : set) {
    for (const auto& [to, value] : support[v]) inside += to > v && has(to) ? value : 0;
  }
  return is_more_than_tree(inside, set.size());
}
}  // namespace certify
