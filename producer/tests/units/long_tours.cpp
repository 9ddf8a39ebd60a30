// Tests of tours as blocks, and of the chained search.
#include <algorithm>
#include <cmath>
#include <numeric>

#include "fixtures.h"
#include "tours/block_tour.h"
#include "tours/chained_search.h"
#include "tours/tours.h"

using certify::Pair;
using certify::Random;
using certify::Tour;
using namespace potentials;

namespace {
// The path from one node to another of a list.
std::pair<int, int> places_of(const Tour& tour, int a, int b) {
  const auto place = [&](int v) {
    return static_cast<int>(std::find(tour.begin(), tour.end(), v) - tour.begin());
  };
  return {place(a), place(b)};
}

void reverse_plainly(Tour& tour, int a, int b) {
  std::rotate(tour.begin(), std::find(tour.begin(), tour.end(), a), tour.end());
  std::reverse(tour.begin(), std::find(tour.begin(), tour.end(), b) + 1);
}

Problem uniform(int nodes, const std::vector<Pair>& fixed, Random& random) {
  Points points;
  for (int i = 0; i < nodes; i++) {
    points.x.push_back(random.below(100000));
    points.y.push_back(random.below(100000));
    points.z.push_back(0);
  }
  return Problem(std::move(points), fixed);
}
}  // namespace

TEST_CASE("a tour of blocks is what a plain list is") {
  Random random(1);
  for (const int nodes : {9, 40, 700}) {
    Tour plain(nodes);
    std::iota(plain.begin(), plain.end(), 0);
    BlockTour blocks(plain);
    for (int trial = 0; trial < 2000; trial++) {
      const int a = random.below(nodes);
      const int b = random.below(nodes);
      reverse_plainly(plain, a, b);
      blocks.reverse(a, b);
      if (trial % 5 == 0) {
        std::reverse(plain.begin(), plain.end());
        blocks.turn();
      }
      const int c = random.below(nodes);
      const int next = plain[(places_of(plain, c, c).first + 1) % nodes];
      REQUIRE(blocks.next(c) == next);
      REQUIRE(blocks.prev(next) == c);
      std::rotate(plain.begin(), std::find(plain.begin(), plain.end(), a), plain.end());
      const auto [from, to] = places_of(plain, b, c);
      REQUIRE(blocks.between(a, b, c) == (from <= to));
    }
    Tour order = blocks.order();
    std::sort(order.begin(), order.end());
    for (int v = 0; v < nodes; v++) CHECK(order[v] == v);
  }
}

// Each of them is as near to all others, and to the same few first of all.
TEST_CASE("a first tour of many equal points visits each") {
  Points points;
  for (int i = 0; i < 20000; i++) {
    points.x.push_back(i < 15000 ? 5 : 400);
    points.y.push_back(i % 1000 == 7 ? 90 : 5);
    points.z.push_back(0);
  }
  const Problem problem(points, {});
  Tour tour = first_tour(problem);
  CHECK(problem.length(tour) < 5000);
  std::sort(tour.begin(), tour.end());
  for (int v = 0; v < problem.nodes(); v++) REQUIRE(tour[v] == v);
}

TEST_CASE("a search shortens a tour, keeps each node and each fixed edge") {
  Random random(2);
  for (const std::vector<Pair>& fixed : {std::vector<Pair>{}, std::vector<Pair>{{1, 2}, {2, 250}, {7, 9}}}) {
    const Problem problem = uniform(300, fixed, random);
    const Tour first = first_tour(problem);
    CHECK(problem.allows(first));
    TourSearch search;
    search.kicks = 500;
    search.watch = [](long, double) { return true; };
    const Shortened found = shorten(problem, first, std::vector<double>(300), {}, search);
    CHECK(found.kicks == 500);
    CHECK(problem.length(found.tour) < 0.95 * problem.length(first));
    CHECK(problem.allows(found.tour));
    Tour sorted = found.tour;
    std::sort(sorted.begin(), sorted.end());
    for (int v = 0; v < 300; v++) CHECK(sorted[v] == v);
    CHECK(shorten(problem, first, std::vector<double>(300), {}, search).tour == found.tour);
  }
}

// Twelve clusters on a circle, each far from the others. A shortest tour has one edge from each to the next
// one.
TEST_CASE("a tour that takes clusters in a wrong order is mended") {
  constexpr int kClusters = 12;
  constexpr int kEach = 60;
  Random random(4);
  Points points;
  Tour order;
  for (int v = 0; v < kClusters * kEach; v++) {
    const int cluster = v / kEach;
    const double angle = 2 * 3.14159265358979 * cluster / kClusters;
    points.x.push_back(std::round(100000 * std::cos(angle)) + random.below(3000));
    points.y.push_back(std::round(100000 * std::sin(angle)) + random.below(3000));
    points.z.push_back(0);
    order.push_back(cluster * 5 % kClusters * kEach + v % kEach);  // each fifth cluster
  }
  const Problem problem(std::move(points), {});
  TourSearch search;
  search.named = true;
  search.kicks = 3000;
  search.watch = [](long, double) { return true; };
  const Shortened found =
      shorten(problem, problem.inward(order), std::vector<double>(order.size()), {}, search);
  const Tour tour = problem.outward(found.tour);
  std::vector<int> steps;  // from a cluster to another
  for (std::size_t k = 0; k < tour.size(); k++) {
    const int from = tour[k] / kEach;
    const int to = tour[(k + 1) % tour.size()] / kEach;
    if (from != to) steps.push_back((to - from + kClusters) % kClusters);
  }
  CHECK(steps.size() == kClusters);
  CHECK(std::all_of(steps.begin(), steps.end(), [&](int step) { return step == steps[0]; }));
  CHECK((steps[0] == 1 || steps[0] == kClusters - 1));
}

TEST_CASE("tours of nine nodes are shortest after kicks") {
  Random random(3);
  for (int trial = 0; trial < 20; trial++) {
    certify::Matrix weights = random_matrix(9, random);
    const double least = static_cast<double>(shortest(weights));
    const Problem problem(std::move(weights), {});
    TourSearch search;
    search.kicks = 300;
    search.watch = [](long, double) { return true; };
    const Shortened found = shorten(problem, first_tour(problem), std::vector<double>(9), {}, search);
    CHECK(problem.length(found.tour) == least);
  }
}
