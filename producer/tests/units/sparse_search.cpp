// The search without a matrix: regions of a tour, passes over it, and the whole search.
#include "sparse/sparse_search.h"

#include <algorithm>
#include <cmath>

#include "fixtures.h"
#include "potentials/ascent.h"
#include "sparse/region_search.h"
#include "sparse/sparse_leaf.h"
#include "sparse/sparse_parameters.h"
#include "sparse/tour_passes.h"
#include "tours/eax.h"
#include "tours/tours.h"

using certify::CutPool;
using certify::Instance;
using certify::Matrix;
using certify::NodeSet;
using certify::Pair;
using certify::Random;
using certify::Tour;
using certify::Weight;
using potentials::Points;
using potentials::Problem;
using namespace sparse;

TEST_CASE("regions have each node once") {
  Random random(5);
  for (const int nodes : {3, 50, 1000}) {
    const Problem problem(points_in_plane(nodes, random), {});
    for (int pass = 0; pass < 4; pass++) {
      NodeSet all;
      for (const NodeSet& region : regions_of(problem, in_order(nodes), 60, pass)) {
        CHECK(region.size() <= 150);
        all.insert(all.end(), region.begin(), region.end());
      }
      std::sort(all.begin(), all.end());
      CHECK(all == in_order(nodes));
    }
  }
}

TEST_CASE("nodes at long edges are those around them") {
  Points points;
  for (int k = 0; k < 12; k++) {  // two rows of six, far from each other
    points.x.push_back(k % 6);
    points.y.push_back(k < 6 ? 0 : 100);
    points.z.push_back(0);
  }
  const Problem problem(points, {});
  const Tour tour = problem.inward({0, 1, 2, 3, 4, 5, 11, 10, 9, 8, 7, 6});
  NodeSet nodes = problem.outward(nodes_at_long_edges(problem, tour, {}, 16));
  std::sort(nodes.begin(), nodes.end());
  CHECK(nodes == NodeSet{0, 1, 4, 5, 6, 7, 10, 11});
  const Tour inner = problem.inward({2, 3});
  nodes = nodes_at_long_edges(problem, tour, {problem.edge(inner[0], inner[1])}, 9);
  CHECK(nodes.size() == 6);
  CHECK(std::count(nodes.begin(), nodes.end(), inner[0]) == 1);
}

TEST_CASE("a pass over the nodes at long edges visits clusters in a better order") {
  Random random(10);
  std::vector<int> clusters = in_order(16);
  random.shuffle(clusters);
  Points points;
  for (const int cluster : clusters) {
    const int left = cluster % 4 * 1000, low = cluster / 4 * 1000;
    for (int k = 0; k < 12; k++) {
      points.x.push_back(left + random.below(50));
      points.y.push_back(low + random.below(50));
      points.z.push_back(0);
    }
  }
  const Problem problem(points, {});
  const Tour tour = problem.inward(in_order(192));  // one cluster after another, by chance
  const std::vector<double> numbers(192, 0);
  RegionSearch search(problem, numbers, tour, 1);
  search.pass_over({nodes_at_long_edges(problem, tour, {}, 128)}, [] { return false; });
  CHECK(problem.length(search.tour()) < 0.75 * problem.length(tour));
  Tour sorted = search.tour();
  std::sort(sorted.begin(), sorted.end());
  CHECK(sorted == in_order(192));
}

TEST_CASE("a merged tour is at most as long as both") {
  Random random(11);
  for (int round = 0; round < 5; round++) {
    const Matrix costs = random_matrix(60, random);
    const Instance instance{costs, {}};
    Tour one = in_order(60), other = one;
    random.shuffle(one);
    random.shuffle(other);
    certify::Eax eax(costs, instance, 2, 1);
    const Weight merged = length_of(costs, eax.merge(one, other, [] { return false; }));
    CHECK(merged <= std::min(length_of(costs, one), length_of(costs, other)));
  }
}

TEST_CASE("a search in regions shortens a tour and keeps fixed edges") {
  Random random(6);
  const std::vector<Pair> fixed{{0, 50}, {50, 120}, {200, 3}, {77, 78}};
  const Problem problem(points_in_plane(300, random), fixed);
  const Tour tour = potentials::first_tour(problem);
  const std::vector<double> numbers(300, 0);
  RegionSearch search(problem, numbers, tour, 1);
  for (int pass = 0; pass < 2; pass++) {
    const double before = problem.length(search.tour());
    search.pass_over(regions_of(problem, in_order(300), 100, pass), [] { return false; });
    CHECK(problem.length(search.tour()) < before);
    CHECK(problem.allows(search.tour()));
    Tour sorted = search.tour();
    std::sort(sorted.begin(), sorted.end());
    CHECK(sorted == in_order(300));
  }
}

TEST_CASE("passes beside other work lead to the same tour") {
  Random random(13);
  const Problem problem(points_in_plane(400, random), {});
  const Tour tour = potentials::first_tour(problem);
  const std::vector<double> numbers(400, 0);
  const certify::Clock clock(0);
  const std::vector<potentials::Edge> graph;
  TourPasses passes(problem, numbers, graph, clock, tour, 1), beside(problem, numbers, graph, clock, tour, 1);
  for (int k = 0; k < kSparse.passes_beside; k++) passes.pass([] { return false; });
  beside.begin_beside();
  beside.end_beside();
  CHECK(beside.tour() == passes.tour());
  CHECK(beside.passes() == kSparse.passes_beside);
  CHECK(problem.length(beside.tour()) < problem.length(tour));
}

TEST_CASE("a sparse search bounds all tours") {
  Random random(7);
  for (const int nodes : {9, 12, 60}) {
    const Problem problem(points_in_plane(nodes, random),
                          nodes == 12 ? std::vector<Pair>{{0, 5}} : std::vector<Pair>{});
    const certify::Clock clock(0);
    certify::Progress progress;
    SparseSearch search(problem, {}, clock, progress);
    search.run();
    CHECK(problem.allows(search.tour()));
    CHECK(search.length() == std::llround(problem.length(search.tour())));
    CHECK(search.bound() <= search.length());
    CHECK(static_cast<double>(search.bound()) > 0.97 * static_cast<double>(search.length()));
  }
}

TEST_CASE("a sparse search whose time is over at once bounds as potentials do") {
  Random random(8);
  const Problem problem(points_in_plane(500, random), {});
  const certify::Clock clock(1e-9);
  certify::Progress progress;
  SparseSearch search(problem, {}, clock, progress);
  search.run();
  CHECK(problem.allows(search.tour()));
  CHECK(search.bound() <= search.length());
  // as much as the numbers of an ascent that ends at once
  potentials::Ascent ascent(problem);
  const std::vector<double> duals = ascent.run(kSparse.steps, [](int, double) { return false; });
  CutPool pool(500);
  SparseLeaf leaf(problem, pool, problem.length(search.tour()) / 500);
  CHECK(search.bound() >= leaf.bound_of(leaf.value(leaf.alone(duals), {})));
}
