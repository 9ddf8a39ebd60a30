#include "points/problem.h"

#include <algorithm>
#include <numeric>
#include <utility>

#include "points/kd_tree.h"
#include "points/matrix_search.h"
#include "running/refusal.h"

namespace potentials {
using certify::Pair;
using certify::Refusal;

Problem::Problem(Points points, const std::vector<Pair>& fixed) : points_(std::move(points)) {
  auto tree = std::make_unique<KdTree>(points_);
  original_ = tree->order();
  searches_ = std::move(tree);
  fix(fixed);
}

Problem::Problem(Matrix matrix, const std::vector<Pair>& fixed)
    : matrix_(std::move(matrix)), original_(matrix_->nodes()) {
  std::iota(original_.begin(), original_.end(), 0);
  searches_ = std::make_unique<MatrixSearch>(*matrix_);
  base_ = cost(0, 1);
  for (int i = 0; i < nodes(); i++) {
    for (int j = 0; j < i; j++) base_ = std::min(base_, cost(i, j));
  }
  fix(fixed);
}

void Problem::fix(const std::vector<Pair>& fixed) {
  places_.resize(original_.size());
  for (int i = 0; i < nodes(); i++) places_[original_[i]] = i;
  special_ = places_[0];
  for (const auto& [a, b] : fixed) fixed_.emplace_back(std::minmax(places_[a], places_[b]));
  std::sort(fixed_.begin(), fixed_.end());
  fixed_.erase(std::unique(fixed_.begin(), fixed_.end()), fixed_.end());
  if (fixed_.empty()) return;
  partners_.assign(nodes(), {-1, -1});
  for (const auto& [a, b] : fixed_) {
    for (const auto& [from, to] : {Pair(a, b), Pair(b, a)}) {
      if (partners_[from][1] >= 0) throw Refusal("no tour uses all fixed edges");
      partners_[from][partners_[from][0] >= 0 ? 1 : 0] = to;
    }
  }
  refuse_cycles();
}

// Fixed edges may close one cycle, where it has all nodes.
void Problem::refuse_cycles() const {
  std::vector<char> seen(nodes(), 0);
  const auto walk = [&](int start) {
    int count = 0;
    for (int v = start, next = start; next >= 0; v = next, count++) {
      seen[v] = 1;
      next = -1;
      for (const int other : partners_[v]) {
        if (other >= 0 && seen[other] == 0) next = other;
      }
    }
    return count;
  };
  for (int v = 0; v < nodes(); v++) {
    if (seen[v] == 0 && partners_[v][1] < 0) walk(v);  // a path from its end on
  }
  for (int v = 0; v < nodes(); v++) {
    if (seen[v] == 0 && walk(v) < nodes()) throw Refusal("no tour uses all fixed edges");
  }
}

Tour Problem::outward(const Tour& tour) const {
  Tour result(tour);
  for (int& node : result) node = original_[node];
  return result;
}

Tour Problem::inward(const Tour& tour) const {
  Tour result(tour);
  for (int& node : result) node = places_[node];
  return result;
}

double Problem::length(const Tour& tour) const {
  double sum = cost(tour.back(), tour.front());
  for (std::size_t k = 1; k < tour.size(); k++) sum += cost(tour[k - 1], tour[k]);
  return sum;
}

bool Problem::allows(const Tour& tour) const {
  std::size_t count = 0;
  for (std::size_t k = 0; k < tour.size(); k++) {
    if (is_fixed(tour[k], tour[k + 1 == tour.size() ? 0 : k + 1])) count++;
  }
  return count == fixed_.size();
}
}  // namespace potentials
