#include "tours/arc_tours.h"

#include <algorithm>
#include <limits>
#include <numeric>
#include <optional>

#include "running/parameters.h"
#include "running/refusal.h"
#include "tours/all_orders.h"
#include "tours/arc_search.h"
#include "tours/assignment.h"

namespace certify {
namespace {
// The cycle that each node is in.
std::vector<int> cycle_numbers(const std::vector<int>& next) {
  std::vector<int> numbers(next.size(), -1);
  int number = 0;
  for (std::size_t start = 0; start < next.size(); start++) {
    if (numbers[start] >= 0) continue;
    for (int v = static_cast<int>(start); numbers[v] < 0; v = next[v]) numbers[v] = number;
    number++;
  }
  return numbers;
}

Tour follow(const std::vector<int>& next) {
  Tour tour;
  for (int v = next[0]; v != 0; v = next[v]) tour.push_back(v);
  tour.push_back(0);
  return tour;
}

// The costs between paths: from the last node of one to the first node of another.
Matrix costs_between(const Matrix& weights, const std::vector<std::vector<int>>& paths) {
  const int count = static_cast<int>(paths.size());
  Matrix costs(count);
  for (int i = 0; i < count; i++) {
    for (int j = 0; j < count; j++) {
      if (i != j) costs.set_arc(i, j, weights(paths[i].back(), paths[j].front()));
    }
  }
  return costs;
}

// For each node those to go on to that cost least beyond the duals of an assignment.
Neighbours nearest_by_duals(const Matrix& costs, const Assignment& assignment) {
  Matrix reduced(costs.nodes());
  for (int i = 0; i < costs.nodes(); i++) {
    for (int j = 0; j < costs.nodes(); j++) {
      reduced.set_arc(i, j, costs(i, j) - assignment.leaving[i] - assignment.entering[j]);
    }
  }
  return nearest(reduced, kArcTours.near);
}

std::vector<Tour> good_tours(const Matrix& costs, const Assignment& assignment, int runs, int patience,
                             std::uint64_t seed, const std::function<bool()>& stop) {
  Random random(seed);
  ArcSearch search(costs, nearest_by_duals(costs, assignment), seed + 1);
  Tour start = patched(costs, assignment.next);
  std::vector<Tour> tours;
  for (int run = 0; run < runs && (run == 0 || !stop()); run++) {
    tours.push_back(search.kicked(start, patience * costs.nodes(), stop));
    random.shuffle(start);
  }
  std::stable_sort(tours.begin(), tours.end(),
                   [&](const Tour& a, const Tour& b) { return length_of(costs, a) < length_of(costs, b); });
  return tours;
}

Tour spelled_out(const Tour& tour, const std::vector<std::vector<int>>& paths) {
  Tour nodes;
  for (const int path : tour) nodes.insert(nodes.end(), paths[path].begin(), paths[path].end());
  return nodes;
}
}  // namespace

Tour patched(const Matrix& weights, std::vector<int> next) {
  const int nodes = static_cast<int>(next.size());
  std::vector<int> numbers = cycle_numbers(next);
  for (int left = *std::max_element(numbers.begin(), numbers.end()); left > 0; left--) {
    Weight least = std::numeric_limits<Weight>::max();
    Pair best{0, 0};
    for (int i = 0; i < nodes; i++) {
      for (int j = 0; j < i; j++) {
        if (numbers[i] == numbers[j]) continue;
        const Weight more =
            weights(i, next[j]) + weights(j, next[i]) - weights(i, next[i]) - weights(j, next[j]);
        if (more >= least) continue;
        least = more;
        best = {i, j};
      }
    }
    std::swap(next[best.first], next[best.second]);
    const int joined = numbers[best.second];
    std::replace(numbers.begin(), numbers.end(), joined, numbers[best.first]);
  }
  return follow(next);
}

std::vector<std::vector<int>> arc_paths_of(const std::vector<Pair>& fixed, int nodes) {
  std::vector<std::optional<int>> next(nodes);
  std::vector<char> entered(nodes, 0);
  for (const auto& [from, to] : fixed) {
    if (next[from] || entered[to]) throw Refusal("no tour uses all fixed edges: two leave or enter one node");
    next[from] = to;
    entered[to] = 1;
  }
  std::vector<std::vector<int>> paths;
  std::size_t covered = 0;
  const auto trace = [&](int start) {
    std::vector<int> path{start};
    while (next[path.back()] && *next[path.back()] != start) path.push_back(*next[path.back()]);
    covered += path.size();
    paths.push_back(std::move(path));
  };
  for (int v = 0; v < nodes; v++) {
    if (!entered[v]) trace(v);
  }
  if (paths.empty()) trace(0);
  if (covered < static_cast<std::size_t>(nodes)) {
    throw Refusal("no tour uses all fixed edges: they close a cycle of fewer nodes");
  }
  return paths;
}

ArcTours find_arc_tours(const Instance& instance, int runs, int patience, std::uint64_t seed,
                        const std::function<bool()>& stop) {
  const std::vector<std::vector<int>> paths = arc_paths_of(instance.fixed, instance.nodes());
  if (paths.size() == 1) return {paths[0], {}, {}};
  const Matrix costs = costs_between(instance.weights, paths);
  const auto length = [&](const Tour& tour) { return length_of(costs, tour); };
  ArcTours found;
  if (costs.nodes() <= kTours.few_nodes) {
    found.best = spelled_out(shortest_by_orders(costs.nodes(), length), paths);
    return found;
  }
  const Assignment assignment = cheapest_assignment(costs);
  for (const Tour& tour : good_tours(costs, assignment, runs, patience, seed, stop)) {
    found.further.push_back(spelled_out(tour, paths));
  }
  found.best = found.further[0];
  const Neighbours near = nearest_by_duals(costs, assignment);
  for (int i = 0; i < costs.nodes(); i++) {
    for (const int j : near[i]) found.arcs.emplace_back(paths[i].back(), paths[j].front());
  }
  for (const Tour& tour : found.further) {
    for (const Pair& arc : arcs_of(tour)) found.arcs.push_back(arc);
  }
  return found;
}
}  // namespace certify
