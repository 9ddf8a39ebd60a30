#include "graphs/tour.h"

#include <algorithm>
#include <array>

namespace certify {
Weight length_of(const Matrix& weights, const Tour& tour) {
  Weight sum = 0;
  for (const auto& [i, j] : arcs_of(tour)) sum += weights(i, j);
  return sum;
}

std::vector<Pair> arcs_of(const Tour& tour) {
  std::vector<Pair> arcs;
  arcs.reserve(tour.size());
  for (std::size_t k = 0; k < tour.size(); k++) {
    arcs.emplace_back(tour[k], tour[k + 1 == tour.size() ? 0 : k + 1]);
  }
  return arcs;
}

std::vector<Pair> edges_of(const Tour& tour) {
  std::vector<Pair> edges = arcs_of(tour);
  for (auto& [low, high] : edges) {
    if (low > high) std::swap(low, high);
  }
  return edges;
}

Neighbours nearest(const Matrix& weights, int count) {
  const int nodes = weights.nodes();
  count = std::min(count, nodes - 1);
  Neighbours lists(nodes);
  std::vector<int> others;
  for (int i = 0; i < nodes; i++) {
    others.clear();
    for (int j = 0; j < nodes; j++) {
      if (j != i) others.push_back(j);
    }
    const Weight* row = weights.row(i);
    std::partial_sort(others.begin(), others.begin() + count, others.end(),
                      [&](int a, int b) { return row[a] != row[b] ? row[a] < row[b] : a < b; });
    lists[i].assign(others.begin(), others.begin() + count);
  }
  return lists;
}

void add_by_quadrants(const Matrix& weights, const std::vector<std::pair<Weight, Weight>>& points, int count,
                      Neighbours& lists) {
  const int nodes = weights.nodes();
  std::array<std::vector<int>, 4> quadrants;
  for (int i = 0; i < static_cast<int>(points.size()); i++) {
    for (std::vector<int>& quadrant : quadrants) quadrant.clear();
    for (int j = 0; j < nodes; j++) {
      const Weight x = points[j].first - points[i].first, y = points[j].second - points[i].second;
      if (j != i) quadrants[x > 0 && y >= 0 ? 0 : x <= 0 && y > 0 ? 1 : x < 0 ? 2 : 3].push_back(j);
    }
    const Weight* row = weights.row(i);
    std::vector<int>& list = lists[i];
    for (std::vector<int>& quadrant : quadrants) {
      const auto end =
          quadrant.begin() + std::min<std::ptrdiff_t>(count, static_cast<std::ptrdiff_t>(quadrant.size()));
      std::partial_sort(quadrant.begin(), end, quadrant.end(),
                        [&](int a, int b) { return row[a] != row[b] ? row[a] < row[b] : a < b; });
      for (auto near = quadrant.begin(); near != end; ++near) {
        if (std::find(list.begin(), list.end(), *near) == list.end()) list.push_back(*near);
      }
    }
    std::stable_sort(list.begin(), list.end(), [&](int a, int b) { return row[a] < row[b]; });
  }
}
}  // namespace certify
