// Tests of tsp-potentials: the k-d tree, 1-trees, the ascent, and duals.
#include <algorithm>
#include <cmath>
#include <limits>
#include <numeric>
#include <set>

#include "fixtures.h"
#include "points/candidates.h"
#include "points/kd_tree.h"
#include "potentials/ascent.h"
#include "potentials/node_potentials.h"
#include "running/refusal.h"
#include "spanning/exact_tree.h"
#include "tours/assignment.h"
#include "tours/tours.h"

using certify::Matrix;
using certify::Pair;
using certify::Random;
using certify::Tour;
using certify::Weight;
using namespace potentials;

namespace {
constexpr Metric kMetrics[] = {Metric::kEuclid, Metric::kCeil, Metric::kManhattan, Metric::kMaximum,
                               Metric::kAtt};

std::vector<double> random_numbers(int count, Random& random) {
  std::vector<double> numbers(count);
  for (double& number : numbers) number = random.below(400) - 200;
  return numbers;
}

double bound_by_definition(const Problem& problem, const std::vector<double>& numbers) {
  return least_tree(problem, numbers, PairSurcharges(problem.nodes())) -
         2 * std::accumulate(numbers.begin(), numbers.end(), 0.0);
}

double bound_by_exact_tree(const Problem& problem, const std::vector<double>& numbers) {
  return bound_of(problem, exact_tree(problem, numbers, {}), numbers);
}

double shortest_of(const Problem& problem) { return problem.length(first_tour(problem)); }
}  // namespace

TEST_CASE("a k-d tree finds what a look at all nodes finds") {
  Random random(1);
  for (const Metric metric : kMetrics) {
    const int axes = metric == Metric::kManhattan ? 3 : 2;
    Points points = random_points(200, axes, metric, random, 60);
    KdTree tree(points);
    const std::vector<double> numbers = random_numbers(200, random);
    std::vector<int> labels(200);
    for (int& label : labels) label = random.below(3);
    tree.set_numbers(numbers);
    tree.set_labels(labels);
    std::vector<Near> found;
    for (int i = 0; i < 200; i += 7) {
      std::vector<double> all;
      double outside = std::numeric_limits<double>::infinity();
      for (int j = 0; j < 200; j++) {
        if (j == i) continue;
        const double weight = points.cost(i, j) + numbers[j];
        all.push_back(weight);
        if (labels[j] != labels[i]) outside = std::min(outside, weight);
      }
      std::sort(all.begin(), all.end());
      tree.lightest(i, 9, found);
      REQUIRE(found.size() == 9);
      for (int k = 0; k < 9; k++) CHECK(found[k].weight == all[k]);
      CHECK(tree.lightest_outside(i, 1e9).weight == outside);
      CHECK(tree.lightest_outside(i, outside).node == -1);  // none is lighter than the lightest
    }
  }
}

TEST_CASE("the nearest one in each quadrant") {
  Points points;
  points.x = {0, 5, -2, -3, 4, 9};
  points.y = {0, 5, 2, -3, -4, 9};
  points.z.assign(6, 0);
  KdTree tree(points);
  const auto place = [&](int before) {
    return static_cast<int>(std::find(tree.order().begin(), tree.order().end(), before) -
                            tree.order().begin());
  };
  tree.set_numbers(std::vector<double>(6));
  std::vector<Near> found;
  tree.lightest_around(place(0), 1, found);
  std::set<int> nodes;
  for (const Near& near : found) nodes.insert(tree.order()[near.node]);
  CHECK(nodes == std::set<int>{1, 2, 3, 4});  // 5 is behind 1
}

TEST_CASE("the exact tree is that of the definition") {
  Random random(2);
  for (const Metric metric : kMetrics) {
    const Problem problem(random_points(60, 2, metric, random), {{3, 9}, {9, 20}, {0, 5}});
    const std::vector<double> numbers = random_numbers(60, random);
    CHECK(bound_by_exact_tree(problem, numbers) == Approx(bound_by_definition(problem, numbers)));
  }
  const Problem problem(random_matrix(50, random), {{3, 9}, {0, 5}, {5, 7}});
  const std::vector<double> numbers = random_numbers(50, random);
  CHECK(bound_by_exact_tree(problem, numbers) == Approx(bound_by_definition(problem, numbers)));
}

TEST_CASE("a sparse 1-tree of all edges is the exact one") {
  Random random(3);
  for (const std::vector<Pair>& fixed : {std::vector<Pair>{}, std::vector<Pair>{{1, 2}, {0, 30}, {0, 31}}}) {
    const Problem problem(random_points(80, 2, Metric::kEuclid, random), fixed);
    OneTree tree(problem);
    tree.set_edges(near_edges(problem, 79, 0));
    std::vector<int> degrees;
    for (int trial = 0; trial < 5; trial++) {  // the later ones use what the first ones learned
      const std::vector<double> numbers = random_numbers(80, random);
      CHECK(tree.weigh(numbers, degrees) == Approx(bound_by_exact_tree(problem, numbers)));
      CHECK(std::accumulate(degrees.begin(), degrees.end(), 0) == 160);
      CHECK(degrees[problem.special()] == 2);
    }
  }
}

TEST_CASE("groups of near points") {
  Points points;  // two pairs, near each other, and one far away
  points.x = {0, 1, 10, 11, 100, 101};
  points.y.assign(6, 0);
  points.z.assign(6, 0);
  const Problem problem(points, {});
  const std::vector<double> none(6);
  const Groups groups = groups_of(problem, exact_tree(problem, none, {}), 1);
  const auto place = [&](int node) {
    const std::vector<int>& original = problem.original();
    return std::find(original.begin(), original.end(), node) - original.begin();
  };
  const auto of = [&](int node) { return groups.of_node[place(node)]; };
  CHECK(groups.size() >= 3);
  CHECK(of(2) == of(3));
  CHECK(of(4) == of(5));
  CHECK(of(2) != of(4));
  CHECK(groups.parents[of(2)] > of(2));  // both pairs are one group among the far ones
}

TEST_CASE("an ascent bounds all tours, and comes near the shortest one") {
  Random random(4);
  const auto always = [](int, double) { return true; };
  for (int trial = 0; trial < 20; trial++) {
    const Problem problem(random_points(8, 2, Metric::kEuclid, random), {});
    Ascent ascent(problem);
    const NodePotentials whole = rounded(problem, ascent.run(200, always));
    const Weight bound = bound_of(problem, whole, ascent.edges());
    CHECK(static_cast<double>(bound) <= shortest_of(problem));
    CHECK(static_cast<double>(bound) >= 0.93 * shortest_of(problem));
  }
  const Problem problem(random_points(300, 2, Metric::kEuclid, random), {});
  Ascent one(problem);
  Ascent other(problem);
  other.seconds_for(100);  // timing changes nothing
  CHECK(one.run(50, always) == other.run(50, always));
}

TEST_CASE("a tour of fixed edges alone has its length as the bound") {
  Random random(5);
  std::vector<Pair> ring;
  ring.reserve(9);
  for (int v = 0; v < 9; v++) ring.emplace_back(v, (v + 1) % 9);
  const Problem problem(random_points(9, 2, Metric::kEuclid, random), ring);
  Ascent ascent(problem);
  const NodePotentials whole = rounded(problem, ascent.run(10, [](int, double) { return true; }));
  const Tour tour = first_tour(problem);
  CHECK(whole.multipliers.size() == 9);
  CHECK(problem.allows(tour));
  CHECK(static_cast<double>(bound_of(problem, whole, {})) == problem.length(tour));
}

TEST_CASE("fixed edges that no tour has") {
  Random random(6);
  const auto refused = [&](const std::vector<Pair>& fixed) {
    try {
      const Problem problem(random_matrix(6, random), fixed);
    } catch (const certify::Refusal&) {
      return true;
    }
    return false;
  };
  CHECK(refused({{0, 1}, {0, 2}, {0, 3}}));           // three at a node
  CHECK(refused({{0, 1}, {1, 2}, {2, 0}}));           // a cycle of three nodes
  CHECK(!refused({{0, 1}, {1, 0}, {1, 2}, {3, 4}}));  // one of them twice
}

TEST_CASE("numbers keep the limits of the format") {
  Matrix weights(4);
  for (int i = 0; i < 4; i++) {
    for (int j = 0; j < i; j++) weights.set(i, j, 1000000000000 - i - j);
  }
  const Problem problem(weights, {{0, 1}});
  const NodePotentials fine = rounded(problem, {0.5, 1.5, 0, 2});
  CHECK(fine.scale == 1000000);
  CHECK(fine.numbers == std::vector<Weight>{-500000, 500000, -1000000, 1000000});  // less the mean
  const NodePotentials coarse = rounded(problem, {0, 5e11, 0, -5e11});
  for (const Weight number : coarse.numbers) CHECK(std::abs(number) <= 1000000000000000);
  for (const auto& multiplier : coarse.multipliers) CHECK(multiplier.number <= 1000000000000000);
  CHECK(coarse.scale == 100);
}

TEST_CASE("duals of an assignment are feasible and add up to its cost") {
  Random random(7);
  for (const int nodes : {3, 4, 20, 60}) {
    for (const int range : {2, 1000}) {
      Matrix weights = random_arcs(nodes, random);
      for (int i = 0; i < nodes; i++) {
        for (int j = 0; j < nodes; j++) weights.set_arc(i, j, weights(i, j) % range - range / 2);
      }
      const certify::Assignment assignment = certify::cheapest_assignment(weights);
      Weight cost = 0;
      Weight duals = 0;
      for (int i = 0; i < nodes; i++) {
        CHECK(assignment.next[i] != i);
        cost += weights(i, assignment.next[i]);
        duals += assignment.leaving[i] + assignment.entering[i];
        for (int j = 0; j < nodes; j++) {
          if (i != j) CHECK(assignment.leaving[i] + assignment.entering[j] <= weights(i, j));
        }
      }
      std::vector<int> entered = assignment.next;
      std::sort(entered.begin(), entered.end());
      for (int j = 0; j < nodes; j++) CHECK(entered[j] == j);
      CHECK(cost == duals);
    }
  }
}
