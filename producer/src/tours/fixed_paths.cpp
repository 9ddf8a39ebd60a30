#include "tours/fixed_paths.h"

#include <algorithm>
#include <cstdlib>

#include "running/refusal.h"

namespace certify {
Matrix with_fixed_lowered(const Matrix& weights, const std::vector<Pair>& fixed) {
  Matrix costs = weights;
  if (fixed.empty()) return costs;
  Weight most = 0;
  for (int i = 0; i < weights.nodes(); i++) {
    for (int j = 0; j < i; j++) most = std::max(most, std::abs(weights(i, j)));
  }
  for (auto [i, j] : fixed) costs.set(i, j, weights(i, j) - 8 * most - 1);
  return costs;
}

Matrix with_potentials(Matrix costs, const std::vector<Weight>& potentials) {
  for (int i = 0; i < costs.nodes(); i++) {
    for (int j = 0; j < i; j++) costs.set(i, j, costs(i, j) - potentials[i] - potentials[j]);
  }
  return costs;
}

std::vector<std::vector<int>> paths_of(const std::vector<Pair>& fixed, int nodes) {
  std::vector<std::vector<int>> beside(nodes), paths;
  for (auto [i, j] : fixed) {
    beside[i].push_back(j);
    beside[j].push_back(i);
  }
  std::vector<char> seen(nodes, 0);
  const auto trace = [&](int start) {
    std::vector<int> path;
    for (int v = start, next = start; next >= 0; v = next) {
      seen[v] = 1;
      path.push_back(v);
      next = -1;
      for (const int w : beside[v]) {
        if (!seen[w]) next = w;
      }
    }
    paths.push_back(path);
  };
  for (int v = 0; v < nodes; v++) {
    if (beside[v].size() > 2) throw Refusal("no tour uses all fixed edges: a node has more than two");
    if (!seen[v] && beside[v].size() < 2) trace(v);
  }
  for (int v = 0; v < nodes; v++) {
    if (seen[v]) continue;
    trace(v);
    if (static_cast<int>(paths.back().size()) < nodes) {
      throw Refusal("no tour uses all fixed edges: they close a cycle of fewer nodes");
    }
  }
  return paths;
}
}  // namespace certify
