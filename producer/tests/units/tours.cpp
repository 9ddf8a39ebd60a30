// Tests of tours, of paths of fixed edges, and of neighbours.
#include <algorithm>
#include <cmath>
#include <numeric>

#include "certify/first_tours.h"
#include "fixtures.h"
#include "running/refusal.h"
#include "tours/eax.h"
#include "tours/local_search.h"

using namespace certify;

TEST_CASE("tours of nine nodes are shortest, and local search shortens") {
  Random random(3);
  for (int trial = 0; trial < 20; trial++) {
    const Matrix weights = random_matrix(9, random);
    Eax eax(weights, Instance{weights, {}}, 30, trial + 1);
    const Tour tour = eax.run([] { return false; }, [](Weight) {});
    CHECK(length_of(weights, tour) == shortest(weights));  // EAX finds the shortest tour of nine nodes
  }
  const Matrix weights = random_matrix(200, random);
  Tour tour(200);
  for (int v = 0; v < 200; v++) tour[v] = v;
  const Weight before = length_of(weights, tour);
  LocalSearch(weights, nearest(weights, 10)).improve(tour);
  CHECK(length_of(weights, tour) < before / 2);  // local search makes a tour much shorter
  std::sort(tour.begin(), tour.end());
  for (int v = 0; v < 200; v++) CHECK(tour[v] == v);  // local search keeps each node
}

TEST_CASE("an edge has the smaller node first, an arc the one that comes first") {
  CHECK(edges_of({2, 0, 1}) == std::vector<Pair>{{0, 2}, {0, 1}, {1, 2}});
  CHECK(arcs_of({2, 0, 1}) == std::vector<Pair>{{2, 0}, {0, 1}, {1, 2}});
}

TEST_CASE("paths of fixed edges") {
  CHECK(paths_of({{0, 1}, {1, 2}}, 5).size() == 3);          // a path and two nodes
  CHECK(paths_of({{0, 1}, {1, 2}, {0, 2}}, 3).size() == 1);  // a whole tour
  bool refused = false;
  try {
    paths_of({{0, 1}, {1, 2}, {0, 2}}, 4);
  } catch (const Refusal&) {
    refused = true;
  }
  CHECK(refused);  // a cycle of three of four nodes
}

TEST_CASE("potentials change each length alike") {
  Random random(3);
  const Matrix weights = random_matrix(9, random);
  std::vector<Weight> potentials(9);
  for (Weight& potential : potentials) potential = random.below(500) - 250;
  const Weight all = std::accumulate(potentials.begin(), potentials.end(), Weight{0});
  const Matrix costs = with_potentials(weights, potentials);
  for (const Tour& tour : {Tour{0, 1, 2, 3, 4, 5, 6, 7, 8}, Tour{3, 8, 1, 0, 6, 2, 7, 5, 4}}) {
    CHECK(length_of(costs, tour) == length_of(weights, tour) - 2 * all);  // each length changes alike
  }
}

// Two clusters of five points: by distance alone no list leads from one to the other.
TEST_CASE("neighbours of each quadrant lead to other clusters") {
  std::vector<std::pair<Weight, Weight>> points;
  for (const Weight left : {0, 1000}) {
    for (const auto& [x, y] :
         std::vector<std::pair<Weight, Weight>>{{0, 0}, {10, 0}, {0, 10}, {10, 10}, {5, 5}})
      points.emplace_back(left + x, y);
  }
  Matrix weights(10);
  for (int i = 0; i < 10; i++) {
    for (int j = 0; j < i; j++) {
      weights.set(
          i, j,
          std::lround(std::hypot(points[i].first - points[j].first, points[i].second - points[j].second)));
    }
  }
  Neighbours lists = nearest(weights, 4);
  CHECK(lists[4] == std::vector<int>{0, 1, 2, 3});
  add_by_quadrants(weights, points, 2, lists);
  std::sort(lists[4].begin(), lists[4].end());
  CHECK(lists[4] == std::vector<int>{0, 1, 2, 3, 5, 7});  // the left corners of the other cluster join
  CHECK(std::count_if(lists[5].begin(), lists[5].end(), [](int v) { return v < 5; }) >= 2);
}

// The clock has no limit here, so that the tours are the same on each machine.
TEST_CASE("kicks give the tour to begin with, which edge assembly may only better") {
  Random random(21);
  const int nodes = 60;
  const potentials::Problem problem(random_points(nodes, 2, potentials::Metric::kEuclid, random),
                                    {{0, 1}, {1, 5}});
  Instance instance{Matrix(nodes), {{0, 1}, {1, 5}}};
  const std::vector<int>& original = problem.original();
  for (int i = 0; i < nodes; i++) {
    for (int j = 0; j < i; j++)
      instance.weights.set(original[i], original[j], std::llround(problem.cost(i, j)));
  }
  Options options;
  const Clock clock(0);
  Progress progress(std::nullopt);
  FirstTours first(options, instance, clock, progress);
  for (const double seconds : {0.0, 300.0}) {
    options.limit.seconds = seconds;
    CHECK(!first.are_hurried());  // without a limit, and with a long one
    CHECK(first.are_kicked());
  }
  for (const bool of_processors : {false, true}) {
    options.limit = {0.01, of_processors};
    CHECK(first.are_hurried());
    CHECK(first.are_kicked());
  }
  options.tour = "named";
  CHECK(!first.are_hurried());  // a tour is there
  CHECK(!first.are_kicked());
  CHECK(first.are_weighed());  // for a bound that no clock takes away
  options.tour.reset();
  first.weigh(problem);
  const Start start = first.find();
  CHECK(start.potentials.size() == 60);
  CHECK(instance.allows(start.tour));
  for (const Tour& tour : start.further) {
    CHECK(length_of(instance.weights, start.tour) <=
          length_of(instance.weights, tour));  // it is the shortest of all
  }
  CHECK(start.further.size() >= 2);  // that of the population, and that of kicks
  CHECK(!start.named);               // so that further tours are looked for
}
