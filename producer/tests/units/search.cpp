// Tests of the tree of cases: its linear program, its pool of cuts, and parts that take a leaf's place.
#include "tree/search.h"

#include <algorithm>
#include <cmath>

#include "cuts/subtours.h"
#include "fixtures.h"
#include "tours/local_search.h"
#include "tree/joining.h"

using namespace certify;

// Of the time 0.2 is used before the tree.
TEST_CASE("whether a tree ends in time") {
  CHECK(ends_in_time(0, 0, 0));          // there is no limit
  CHECK(ends_in_time(0, 0.2, 0.29));     // it is too early for a guess
  CHECK(ends_in_time(0.1, 0.2, 0.4));    // a tenth is done after a quarter of its time
  CHECK(!ends_in_time(0.05, 0.2, 0.4));  // a twentieth is done after a quarter of its time
  CHECK(!ends_in_time(0.6, 0, 0.95));    // it has to be surer near the end
}

namespace {
// The rounded distances of random points.
Matrix random_distances(int nodes, Random& random) {
  Matrix weights(nodes);
  std::vector<Pair> points(nodes);
  for (auto& [x, y] : points) x = random.below(1000), y = random.below(1000);
  for (int i = 0; i < nodes; i++) {
    for (int j = 0; j < i; j++) {
      const auto [x, y] = Pair(points[i].first - points[j].first, points[i].second - points[j].second);
      weights.set(i, j, std::lround(std::hypot(x, y)));
    }
  }
  return weights;
}
}  // namespace

// Points whose solution has fractional edges, from which bounds are tried, and which is found again.
TEST_CASE("a solution is found again from its basis") {
  Random random(6);
  const Matrix weights = random_distances(30, random);
  const Tour tour = in_order(30);
  CutPool pool(30);
  const Instance instance{weights, {}, false};
  Relaxation relaxation(instance, pool, tour);
  relaxation.add_edges(edges_of(tour));
  relaxation.solve();
  for (int round = 0; round < 3; round++) {
    std::vector<int> cuts;
    for (const NodeSet& set : crossed_too_little(relaxation.support(), 0.01))
      cuts.push_back(pool.add_subtour(set));
    relaxation.add_cuts(cuts);
    relaxation.solve();
  }
  const double value = relaxation.value();
  const Basis basis = relaxation.basis();
  const auto same = [&] { return std::abs(relaxation.value() - value) < 1e-6 * value; };
  const int columns = relaxation.columns();
  relaxation.drop_edges();
  CHECK(relaxation.columns() < columns);  // edges are dropped
  relaxation.solve();
  CHECK(same());  // the value without the dropped edges
  for (int column = 0; column < relaxation.columns(); column += 5) {
    const Pair pair = relaxation.edge(column);
    for (const bool used : {true, false}) {
      const double gain = relaxation.gains({{column, used ? 1 : 0}}, 1000)[0];
      relaxation.decide({pair, used});
      relaxation.solve();
      CHECK(relaxation.value() >= value - 1e-6 * value);         // a decision lowers the value
      CHECK(relaxation.value() <= value + gain + 1e-6 * value);  // a bound that is tried gains less
      relaxation.release(pair);
      relaxation.restore(basis);
      relaxation.solve();
      CHECK((same() && relaxation.edge(column) == pair));  // the value after a return to a basis
    }
  }
}

// A rectangle of 3 by 4. Its sides are the best tour until each of them costs 1 more: by 14 + 4 against 16
// + 2.
TEST_CASE("the edges of a whole solution are the best ones by a margin") {
  Matrix weights(4);
  const std::vector<Pair> sides{{0, 1}, {1, 2}, {2, 3}, {0, 3}}, diagonals{{0, 2}, {1, 3}};
  for (const Pair& side : sides) weights.set(side.first, side.second, side.first % 2 == 0 ? 3 : 4);
  weights.set(0, 3, 4);
  for (const Pair& diagonal : diagonals) weights.set(diagonal.first, diagonal.second, 5);
  CutPool pool(4);
  const Instance instance{weights, {}, false};
  Relaxation relaxation(instance, pool, {0, 1, 2, 3});
  relaxation.add_edges(sides);
  relaxation.solve();
  CHECK(relaxation.is_whole());
  relaxation.take_margin(0.9);
  const auto reduced = [&](const Pair& pair) {
    return static_cast<double>(weights(pair.first, pair.second)) - relaxation.leaving_dual(pair.first) -
           relaxation.leaving_dual(pair.second);
  };
  for (const Pair& side : sides) CHECK(reduced(side) < -0.9 + 1e-6);
  for (const Pair& diagonal : diagonals) CHECK(reduced(diagonal) > -1e-6);
  relaxation.solve();
  CHECK(std::abs(relaxation.value() - 14) < 1e-6);  // the weights are as they were
}

// Two grids of 8 by 8, far apart. A solution has two edges of 99993 or more between them, and in each 63
// edges of 1 or more. The duals of the nodes sum up to more than the first penalty, and without a larger one
// the value is far too low.
TEST_CASE("degrees don't fall short where clusters are far apart") {
  Matrix weights(128);
  for (int i = 0; i < 128; i++) {
    for (int j = 0; j < i; j++) {
      const int x = i / 64 * 100000 + i % 8 - j / 64 * 100000 - j % 8, y = i / 8 % 8 - j / 8 % 8;
      weights.set(i, j, std::lround(std::hypot(x, y)));
    }
  }
  Tour tour;
  for (int part = 0; part < 2; part++) {
    for (int k = 0; k < 64; k++) tour.push_back(64 * part + (k / 8 % 2 == 0 ? k : k / 8 * 8 + 7 - k % 8));
  }
  CutPool pool(128);
  const Instance instance{weights, {}, false};
  Relaxation relaxation(instance, pool, tour);
  relaxation.add_edges(edges_of(tour));
  NodeSet half(64);
  for (int v = 0; v < 64; v++) half[v] = v;
  relaxation.add_cuts({pool.add_subtour(half)});
  relaxation.solve();
  CHECK(relaxation.value() > 2 * 99993 + 2 * 63 - 0.01);
  CHECK(relaxation.value() < static_cast<double>(length_of(weights, tour)) + 0.01);
}

// A tree of a branch on 0-1, whose second leaf becomes a branch on 0-2.
TEST_CASE("a part takes the place of a leaf") {
  const auto leaf = [](Weight first, std::map<int, Weight> multipliers) {
    return TreeStep(Numbers{{first, 0, 0, 0}, std::move(multipliers)});
  };
  const std::vector<NodeSet> pair{{0, 1}}, other{{1, 2}};
  const Certificate tree{4, 2, {{"open", "2"}}, {pair}, {Pair(0, 1), leaf(1, {{0, 3}}), leaf(2, {})}};
  Certificate part{4, 3, {{"tree", identity_of(tree)}, {"leaf", "2"}}, {other, pair}, {}};
  part.steps = {Pair(0, 2), leaf(3, {{0, 1}}), leaf(4, {{1, 5}})};
  const OpenLeaf open = leaf_of(tree, 2);
  CHECK((open.decisions.size() == 1 && !open.decisions[0].used));
  CHECK(leaf_of(tree, 1).decisions[0].used);
  CHECK_THROWS(leaf_of(tree, 3));
  const Certificate whole = joined(tree, {part}).whole;
  CHECK(whole.scale == 6);
  CHECK(whole.notes == std::map<std::string, std::string>{{"open", "1"}});
  CHECK(whole.families == std::vector<std::vector<NodeSet>>{pair, other});
  REQUIRE(whole.steps.size() == 5);
  CHECK(std::get<Pair>(whole.steps[2]) == Pair(0, 2));
  const auto numbers = [&](int step) { return std::get<Numbers>(whole.steps[step]); };
  CHECK((numbers(1).potentials[0] == 3 && numbers(1).multipliers == std::map<int, Weight>{{0, 9}}));
  CHECK((numbers(3).potentials[0] == 6 && numbers(3).multipliers == std::map<int, Weight>{{1, 2}}));
  CHECK((numbers(4).potentials[0] == 8 && numbers(4).multipliers == std::map<int, Weight>{{0, 10}}));
  CHECK(joined(tree, {}).whole.steps.size() == tree.steps.size());
  Certificate changed = tree;
  changed.families[0] = other;
  CHECK(identity_of(changed) != identity_of(tree));
  part.notes["tree"] = identity_of(changed);
  CHECK_THROWS(joined(tree, {part}));
  part.notes.clear();
  CHECK_THROWS(joined(tree, {part}));  // no part at all
}

// A tree of two leaves. All leaves reach the length.
TEST_CASE("a short file has fewer numbers that differ") {
  Random random(3);
  const Instance instance{random_distances(100, random), {}, false};
  Start start;
  start.tour = in_order(100);
  const auto made = [&](bool short_file) {
    const Clock clock(0);
    Progress progress;
    Search search(instance, start, clock, progress, {.short_file = short_file});
    search.run();
    REQUIRE(search.leaves() == 2);
    CHECK(search.open_leaves().empty());
    CHECK(search.bound() == length_of(instance.weights, search.tour()));
    return extent_of(search.certificate()).differences;
  };
  CHECK(made(true) < made(false));
}

// Cuts have the same numbers in a pool that takes them from another one.
TEST_CASE("a pool takes cuts and forgets them") {
  CutPool pool(9), other(9);
  CHECK(pool.add_subtour({1, 2}) == 0);
  CHECK(pool.add_subtour({2, 3}) == 1);
  for (const auto& cut : pool.part(0, 2)) other.add(cut);
  CHECK((other.size() == 2 && other.add_subtour({3, 2}) == 1));
  CHECK(other.add_subtour({4, 5}) == 2);
  other.shrink_to(1);
  CHECK((other.size() == 1 && other.add_subtour({4, 5}) == 1));
}

// Eight edges are lowered so far that a tour by exchanges has most of them.
TEST_CASE("lowered costs change the search and not the matrix") {
  Matrix costs(8);
  for (int i = 0; i < 8; i++) {
    for (int j = 0; j < i; j++) costs.set(i, j, 10 + std::abs(i - j));
  }
  LoweredCosts lowered(costs);
  const std::vector<Pair> wanted{{0, 4}, {4, 1}, {1, 5}, {5, 2}, {2, 6}, {6, 3}, {3, 7}, {7, 0}};
  for (const auto& [i, j] : wanted) lowered.lower(i, j, 100);
  CHECK((lowered(0, 4) == -86 && lowered(4, 0) == -86 && lowered(0, 1) == 11 && costs(0, 4) == 14));
  Neighbours near(8);
  for (int i = 0; i < 8; i++) {
    for (int j = 0; j < 8; j++) {
      if (j != i) near[i].push_back(j);
    }
    std::sort(near[i].begin(), near[i].end(), [&](int a, int b) { return lowered(i, a) < lowered(i, b); });
  }
  Tour tour{0, 1, 2, 3, 4, 5, 6, 7};
  LocalSearch(lowered, near).improve(tour);
  int taken = 0;
  for (const Pair& edge : edges_of(tour)) {
    taken += std::count_if(wanted.begin(), wanted.end(),
                           [&](Pair pair) { return edge == Pair(std::minmax(pair.first, pair.second)); });
  }
  CHECK(taken >= 6);  // of 8, by exchanges alone
}
