// Tests of an ATSP: lengths, assignments, tours, and the bound of rows.
#include <algorithm>
#include <numeric>

#include "fixtures.h"
#include "running/refusal.h"
#include "tours/arc_search.h"
#include "tours/arc_tours.h"
#include "tours/assignment.h"
#include "tree/row_bound.h"
#include "tree/search.h"

using namespace certify;

namespace {
bool has_each_node_once(Tour tour, int nodes) {
  std::sort(tour.begin(), tour.end());
  return tour == in_order(nodes);
}

// The least weight of a way to give each node another one, by all orders.
Weight least_assignment(const Matrix& weights) {
  Tour next = in_order(weights.nodes());
  Weight least = std::numeric_limits<Weight>::max();
  do {
    Weight sum = 0;
    bool loops = false;
    for (int v = 0; v < weights.nodes(); v++) {
      loops = loops || next[v] == v;
      sum += weights(v, next[v]);
    }
    if (!loops) least = std::min(least, sum);
  } while (std::next_permutation(next.begin(), next.end()));
  return least;
}

// The shortest tour that obeys decisions, or nothing, by all orders.
std::optional<Weight> shortest_obeying(const Matrix& weights, const std::vector<Decision>& decisions) {
  std::optional<Weight> least;
  Tour tour = in_order(weights.nodes());
  do {
    const std::vector<Pair> arcs = arcs_of(tour);
    const bool obeys = std::all_of(decisions.begin(), decisions.end(), [&](const Decision& decision) {
      return (std::find(arcs.begin(), arcs.end(), decision.pair) != arcs.end()) == decision.used;
    });
    const Weight length = length_of(weights, tour);
    if (obeys && (!least || length < *least)) least = length;
  } while (std::next_permutation(tour.begin() + 1, tour.end()));
  return least;
}
}  // namespace

TEST_CASE("lengths follow the direction") {
  Matrix weights(3);
  weights.set_arc(0, 1, 1);
  weights.set_arc(1, 2, 2);
  weights.set_arc(2, 0, 3);
  weights.set_arc(1, 0, 10);
  weights.set_arc(2, 1, 20);
  weights.set_arc(0, 2, 30);
  CHECK(length_of(weights, {0, 1, 2}) == 6);
  CHECK(length_of(weights, {2, 1, 0}) == 60);
  const Instance instance{weights, {{0, 1}}, true};
  CHECK(instance.allows({2, 0, 1}));
  CHECK(!instance.allows({2, 1, 0}));
}

TEST_CASE("an assignment is cheapest, and its duals show it") {
  Random random(2);
  for (int trial = 0; trial < 50; trial++) {
    Matrix weights = random_arcs(7, random);
    if (trial % 2 == 1) {
      for (int v = 0; v < 7; v++) weights.set_arc(v, v, -5000);
    }
    const Assignment found = cheapest_assignment(weights);
    Weight sum = 0;
    Weight duals = 0;
    for (int v = 0; v < 7; v++) {
      REQUIRE(found.next[v] != v);
      sum += weights(v, found.next[v]);
      duals += found.leaving[v] + found.entering[v];
      for (int w = 0; w < 7; w++) {
        if (v != w) CHECK(found.leaving[v] + found.entering[w] <= weights(v, w));
      }
    }
    CHECK(sum == least_assignment(weights));
    CHECK(sum == duals);
  }
}

TEST_CASE("patching joins cycles to a tour") {
  Matrix weights(6);
  for (int i = 0; i < 6; i++) {
    for (int j = 0; j < 6; j++) weights.set_arc(i, j, i / 2 == j / 2 ? 1 : 10 + std::abs(i - j));
  }
  CHECK(has_each_node_once(patched(weights, {1, 0, 3, 2, 5, 4}), 6));
  CHECK(patched(weights, {1, 2, 3, 4, 5, 0}) == Tour{1, 2, 3, 4, 5, 0});
}

TEST_CASE("the search for a tour of an ATSP finds shortest ones of nine nodes") {
  Random random(5);
  for (int trial = 0; trial < 30; trial++) {
    const Instance instance{random_arcs(9, random), {}, true};
    const ArcTours found = find_arc_tours(instance, 2, 50, trial + 1, [] { return false; });
    CHECK(has_each_node_once(found.best, 9));
    CHECK(length_of(instance.weights, found.best) == shortest(instance.weights));
  }
}

TEST_CASE("kicks shorten a tour of an ATSP, and it keeps each node") {
  Random random(6);
  const Matrix weights = random_arcs(150, random);
  ArcSearch search(weights, nearest(weights, 8), 1);
  Tour tour = in_order(150);
  search.improve(tour);
  CHECK(has_each_node_once(tour, 150));
  const Tour kicked = search.kicked(tour, 500, [] { return false; });
  CHECK(has_each_node_once(kicked, 150));
  CHECK(length_of(weights, kicked) < length_of(weights, tour));
  CHECK(length_of(weights, tour) < length_of(weights, in_order(150)) / 4);
}

TEST_CASE("tours use all fixed arcs, in their direction") {
  Random random(7);
  const std::vector<Pair> fixed{{3, 1}, {1, 7}, {10, 2}};
  const Instance instance{random_arcs(12, random), fixed, true};
  const ArcTours found = find_arc_tours(instance, 2, 20, 1, [] { return false; });
  CHECK(instance.allows(found.best));
  CHECK(has_each_node_once(found.best, 12));
  CHECK(arc_paths_of({{0, 1}, {1, 2}, {2, 0}}, 3).size() == 1);
  CHECK(arc_paths_of(fixed, 12).size() == 9);
  CHECK_THROWS_AS(arc_paths_of({{0, 1}, {1, 0}}, 3), Refusal);
  CHECK_THROWS_AS(arc_paths_of({{0, 1}, {0, 2}}, 4), Refusal);
  CHECK_THROWS_AS(arc_paths_of({{0, 2}, {1, 2}}, 4), Refusal);
}

// The worked examples of docs/format.md.
TEST_CASE("the bound of rows by hand") {
  Matrix weights(3);
  weights.set_arc(0, 1, 1);
  weights.set_arc(0, 2, 10);
  weights.set_arc(1, 0, 10);
  weights.set_arc(1, 2, 2);
  weights.set_arc(2, 0, 3);
  weights.set_arc(2, 1, 10);
  const CutPool none(3);
  RowBound bound(weights, none, 1);
  const Numbers zero{{0, 0, 0}, {}};
  CHECK(static_cast<Weight>(bound.value(zero, {})) == 6);
  CHECK(static_cast<Weight>(bound.value(zero, {{{0, 1}, true}})) == 6);
  CHECK(static_cast<Weight>(bound.value(zero, {{{0, 1}, false}})) == 15);
  CHECK((bound.value(zero, {{{0, 1}, true}, {{1, 0}, true}}) == -ExactBound::nothing()));
  Matrix valleys(4);
  for (int i = 0; i < 4; i++) {
    for (int j = 0; j < 4; j++) valleys.set_arc(i, j, i / 2 == j / 2 ? 1 : 9);
  }
  CutPool pool(4);
  const int set = pool.add_subtour({0, 1});
  RowBound crossed(valleys, pool, 1);
  CHECK(static_cast<Weight>(crossed.value({{0, 0, 0, 0}, {}}, {})) == 4);
  CHECK(static_cast<Weight>(crossed.value({{0, 0, 0, 0}, {{set, 8}}}, {})) == 20);
}

TEST_CASE("any numbers bound every tour that obeys the decisions of an ATSP") {
  Random random(9);
  for (int trial = 0; trial < 200; trial++) {
    const Matrix weights = random_arcs(7, random);
    CutPool pool(7);
    const int comb = pool.add_comb({{0, 1, 2}, {0, 3}, {1, 4}, {2, 5}});
    const int set = pool.add_subtour({1, 5, 6});
    RowBound bound(weights, pool, 10);
    Numbers numbers;
    for (int v = 0; v < 7; v++) numbers.potentials.push_back(random.below(2000) - 1000);
    numbers.multipliers[comb] = random.below(500);
    numbers.multipliers[set] = random.below(500);
    CHECK(bound.bound_of(bound.value(numbers, {})) <= shortest(weights));
    const std::vector<Decision> decisions{{{2, 4}, trial % 2 == 0}, {{4, 2}, trial % 4 < 2}, {{0, 6}, false}};
    const std::optional<Weight> least = shortest_obeying(weights, decisions);
    const Value value = bound.value(numbers, decisions);
    if (least) {
      CHECK(bound.bound_of(value) <= *least);
    } else {
      CHECK((value > 0));
    }
  }
}

TEST_CASE("a search closes small instances of TYPE ATSP at the shortest length") {
  Random random(10);
  for (int trial = 0; trial < 10; trial++) {
    const Instance instance{random_arcs(8, random), {}, true};
    const Clock clock(0);
    Progress progress;
    Start start;
    start.tour = in_order(8);
    Search search(instance, start, clock, progress);
    search.run();
    CHECK(length_of(instance.weights, search.tour()) == shortest(instance.weights));
    CHECK(search.bound() == shortest(instance.weights));
  }
}
