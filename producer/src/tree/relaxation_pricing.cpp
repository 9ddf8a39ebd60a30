#include <algorithm>
#include <cmath>

#include "tree/relaxation.h"

namespace certify {
namespace {
constexpr double kTiny = 1e-6;
}  // namespace

// The duals of the degrees as weights, each at least by 1 too large. Whole numbers tell of most pairs that
// they cost more, without a division.
std::vector<Weight> Relaxation::rounded_up_duals() const {
  std::vector<Weight> duals;
  duals.reserve(node_duals_.size());
  for (const double dual : node_duals_) duals.push_back(static_cast<Weight>(std::ceil(dual * unit_)) + 1);
  return duals;
}

// The absent edges with a negative reduced cost, the least first.
std::vector<Pair> Relaxation::missing_edges(
    const std::vector<std::vector<std::pair<int, double>>>& sets) const {
  std::vector<std::pair<double, Pair>> missing;
  const std::vector<Weight> paid = rounded_up_duals();
  for (int i = 0; i < nodes_; i++) {
    const Weight* row = weights_.row(i);
    const Weight enough = least_ + paid[i];
    for (int j = instance_.directed ? 0 : i + 1; j < nodes_; j++) {
      if (row[j] - paid[entering_row(j)] > enough) continue;
      double cost =
          static_cast<double>(row[j] - least_) / unit_ - node_duals_[i] - node_duals_[entering_row(j)];
      if (cost > -kTiny || j == i || present_[static_cast<std::size_t>(i) * nodes_ + j]) continue;
      auto a = sets[i].begin(), b = sets[j].begin();
      while (cost < -kTiny && a != sets[i].end() && b != sets[j].end()) {
        if (a->first == b->first) {
          cost += a->second;
          ++a;
          ++b;
        } else {
          ++(a->first < b->first ? a : b);
        }
      }
      if (cost < -kTiny) missing.emplace_back(cost, Pair(i, j));
    }
  }
  std::sort(missing.begin(), missing.end());
  missing.resize(std::min(missing.size(), static_cast<std::size_t>(2 * nodes_)));
  std::vector<Pair> edges;
  edges.reserve(missing.size());
  for (const auto& [cost, edge] : missing) edges.push_back(edge);
  return edges;
}

// Prices all pairs. How many edges joined.
int Relaxation::price() {
  read_duals();
  std::vector<std::vector<std::pair<int, double>>> sets(nodes_);
  int number = 0;
  for (std::size_t row = 0; row < cuts_.size(); row++) {
    if (cut_duals_[row] < 1e-9) continue;
    for (const NodeSet& set : pool_[cuts_[row]].sets) {
      for (const int v : set) sets[v].emplace_back(number, cut_duals_[row]);
      number++;
    }
  }
  const std::vector<Pair> edges = missing_edges(sets);
  add_edges(edges);
  return static_cast<int>(edges.size());
}
}  // namespace certify
