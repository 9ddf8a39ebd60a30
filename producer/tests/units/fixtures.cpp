#include "fixtures.h"

#include <algorithm>
#include <numeric>
#include <set>

using namespace certify;
using potentials::Metric;
using potentials::Points;

Matrix random_matrix(int nodes, Random& random) {
  Matrix matrix(nodes);
  for (int i = 0; i < nodes; i++) {
    for (int j = 0; j < i; j++) matrix.set(i, j, random.below(1000));
  }
  return matrix;
}

Matrix random_arcs(int nodes, Random& random) {
  Matrix matrix(nodes);
  for (int i = 0; i < nodes; i++) {
    for (int j = 0; j < nodes; j++) {
      if (i != j) matrix.set_arc(i, j, random.below(1000));
    }
  }
  return matrix;
}

Weight shortest(const Matrix& weights) {
  Tour tour = in_order(weights.nodes());
  Weight least = length_of(weights, tour);
  while (std::next_permutation(tour.begin() + 1, tour.end()))
    least = std::min(least, length_of(weights, tour));
  return least;
}

Points random_points(int nodes, int axes, Metric metric, Random& random, int side) {
  Points points;
  points.metric = metric;
  points.axes = axes;
  for (int i = 0; i < nodes; i++) {
    points.x.push_back(random.below(side));
    points.y.push_back(random.below(side));
    points.z.push_back(axes == 3 ? random.below(side) : 0);
  }
  return points;
}

Points points_in_plane(int nodes, Random& random) { return random_points(nodes, 2, Metric::kEuclid, random); }

Tour in_order(int nodes) {
  Tour tour(nodes);
  std::iota(tour.begin(), tour.end(), 0);
  return tour;
}

double least_tree(const potentials::Problem& problem, const std::vector<double>& numbers,
                  const potentials::PairSurcharges& surcharges) {
  using Order = std::pair<int, double>;  // fixed edges first, then by weight
  const auto order_of = [&](int i, int j) {
    return Order(problem.is_fixed(i, j) ? 0 : 1,
                 problem.cost(i, j) + numbers[i] + numbers[j] + surcharges.between(i, j));
  };
  std::set<int> outside;
  std::vector<Order> ways;  // from the special node
  for (const int v : in_order(problem.nodes())) {
    if (v == problem.special()) continue;
    outside.insert(v);
    ways.push_back(order_of(problem.special(), v));
  }
  std::sort(ways.begin(), ways.end());
  double sum = ways[0].second + ways[1].second;
  std::vector<Order> near(problem.nodes(), {2, 0});  // the least edge from the tree
  const auto is_nearer = [&](int a, int b) { return near[a] < near[b]; };
  int last = *outside.begin();
  while (outside.size() > 1) {
    outside.erase(last);
    for (const int v : outside) near[v] = std::min(near[v], order_of(last, v));
    last = *std::min_element(outside.begin(), outside.end(), is_nearer);
    sum += near[last].second;
  }
  return sum;
}
