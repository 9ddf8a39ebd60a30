// Routes: loads, walks, bounds and decisions, against results by hand and by trying all cases.
#include <algorithm>

#include "route_fixtures.h"
#include "routes/route_certificate.h"
#include "routes/route_program.h"

using namespace certify;
using namespace certify::routes;

namespace {
// The least walk, by going on from each walk in turn.
Weight least_by_all(const Loads& loads, const std::vector<Weight>& links, Route& walk, int load) {
  const int nodes = static_cast<int>(loads.of.size());
  Weight least = WalkTable<Weight>::none(), sum = 0;
  if (!walk.empty()) {
    int last = 0;
    for (const int v : walk) {
      sum += links[last * nodes + v];
      last = v;
    }
    least = sum + links[last * nodes];
  }
  for (int v = 1; v < nodes; v++) {
    const std::size_t size = walk.size();
    if (load + loads.of[v] > loads.room || (size > 0 && walk[size - 1] == v)) continue;
    if (size > 1 && walk[size - 2] == v) continue;
    walk.push_back(v);
    least = std::min(least, least_by_all(loads, links, walk, load + loads.of[v]));
    walk.pop_back();
  }
  return least;
}

int crossings(const Routes& routes, const NodeSet& set, int nodes) {
  std::vector<char> inside(nodes, 0);
  for (const int v : set) inside[v] = 1;
  int sum = 0;
  for (const Route& route : routes) sum += crossings_of(route, inside);
  return sum;
}

bool keeps(const Routes& routes, const std::vector<Limit>& limits, int nodes) {
  return std::all_of(limits.begin(), limits.end(), [&](const Limit& limit) {
    const int found = crossings(routes, limit.set, nodes);
    return limit.most ? found <= 2 * limit.t : found >= 2 * limit.t + 2;
  });
}
}  // namespace

TEST_CASE("Loads are rounded down, and none is 0") {
  CvrpInstance instance{Matrix(4), {0, 9, 4, 0}, 22, {1, 2, 3, 4}, true};
  const auto ones = loads_in(instance, 1);  // one customer of demand 0: all twice, and room for it
  REQUIRE(ones);
  CHECK(ones->of == std::vector<int>{0, 18, 8, 1});
  CHECK(ones->room == 45);
  const auto fives = loads_in(instance, 5);  // 1, 0, 0 of 4: three times
  REQUIRE(fives);
  CHECK(fives->of == std::vector<int>{0, 3, 1, 1});
  CHECK(fives->room == 14);
  CHECK_FALSE(loads_in(instance, 1, 4 * 46 - 1));
  CHECK(loads_in(instance, 1, 4 * 46));
}

TEST_CASE("The unit of loads is the common divisor where the table is small enough") {
  CvrpInstance instance{Matrix(3), {0, 30, 40}, 95, {1, 2, 3}, true};
  CHECK(finest_loads(instance, 1000).unit == 10);
  CHECK(finest_loads(instance, 3 * 10).unit == 10);
  CHECK(finest_loads(instance, 3 * 10 - 1).unit > 10);
}

TEST_CASE("The least walk is that of all walks") {
  Random random(1);
  for (int k = 0; k < 60; k++) {
    const CvrpInstance instance = random_instance(3 + k % 4, 6, random);
    const auto loads = loads_in(instance, 1 + k % 2);
    REQUIRE(loads);
    if (loads->room > 14) continue;  // (too many walks)
    Links<Weight> links;
    for (int link = 0; link < instance.nodes() * instance.nodes(); link++)
      links.push_back(random.below(60) - 20);
    WalkTable<Weight> table(*loads);
    Route walk;
    const Weight least = least_by_all(*loads, links, walk, 0);
    CHECK(table.least(links) == least);
    for (const Walk<Weight>& found : table.walks(3)) {
      Weight sum = 0;
      int last = 0, load = 0;
      for (const int v : found.customers) {
        sum += links[last * instance.nodes() + v];
        load += loads->of[v];
        last = v;
      }
      CHECK(sum + links[last * instance.nodes()] == found.weight);
      CHECK(load <= loads->room);
    }
    CHECK(table.walks(1)[0].weight == least);
    CHECK(table.least_of_few(links, 1) >= least);
    CHECK(table.least_of_few(links, instance.nodes()) == least);
  }
}

TEST_CASE("The least walk may have heavy links") {
  Random random(6);
  for (int k = 0; k < 4; k++) {
    const CvrpInstance instance = random_instance(90, 12, random);
    const Loads loads = *loads_in(instance, 2);
    Links<Weight> links;
    const std::size_t range = k % 2 == 0 ? 3 : 1000;  // of almost equal links no light ones are enough
    for (int link = 0; link < 90 * 90; link++) links.push_back(random.below(range) - 40);
    WalkTable<Weight> table(loads);
    const Weight least = table.least(links);
    CHECK(table.least_of_few(links, 90) == least);
    CHECK(table.least_of_few(links, 2) >= least);
  }
}

TEST_CASE("Without a walk the bound is above all") {
  const CvrpInstance instance{Matrix(2), {0, 2}, 3, {1, 2}, true};
  Loads loads = *loads_in(instance, 1);
  loads.of[1] = 4;
  WalkBound bound(instance, loads, 1);
  CHECK(bound.value({{0, 0}, {}}, {}) == -WalkBound::nothing());
}

TEST_CASE("Bounds of the rectangle are those by hand") {
  const CvrpInstance instance = rectangle(8);
  const Loads loads = *loads_in(instance, 1), fours = *loads_in(instance, 4), fives = *loads_in(instance, 5);
  const LeafNumbers none{{0, 0, 0, 0}, {}}, threes{{0, -3, -3, -3}, {}};
  CHECK(WalkBound(instance, loads, 1).value(none, {}) == 12);
  CHECK(WalkBound(instance, loads, 1).value(threes, {}) == 18);
  CHECK(WalkBound(instance, fours, 1).value(threes, {}) == 18);
  CHECK(WalkBound(instance, fives, 1).value(threes, {}) == -18);
  LeafNumbers numbers = threes;
  numbers.multipliers[{2, 3}] = 1;
  CHECK(WalkBound(instance, loads, 1).value(numbers, {}) == 14);
  numbers = {{0, -2, -2, -2}, {{{1, 2, 3}, 1}}};
  CHECK(WalkBound(instance, loads, 1).value(numbers, {}) == 16);
  numbers = {{0, 0, 0, 0}, {{{2, 3}, -1}}};
  CHECK(WalkBound(instance, loads, 1).value(numbers, {}) == 6);
  CHECK(WalkBound(instance, loads, 1).value(numbers, {{{2, 3}, true, 1}}) == 10);
  const CvrpInstance seven = rectangle(7);
  const Loads sevens = *loads_in(seven, 1);
  CHECK(WalkBound(seven, sevens, 1).value({{0, -3, -5, -4}, {}}, {}) == 24);
}

TEST_CASE("Numbers past their limits have no bound") {
  const CvrpInstance instance = rectangle(8);
  const Loads loads = *loads_in(instance, 1);
  WalkBound bound(instance, loads, 1);
  CHECK(bound.value({{0, 1000000000000001, 0, 0}, {}}, {}) == WalkBound::nothing());
  for (const double past : {1e300, -1e20}) {
    CHECK(bound.value(bound.rounded({{0, past, 0, 0}, {}}, 1), {}) == WalkBound::nothing());
    CHECK(bound.value(bound.rounded({{0, 0, 0, 0}, {{{1, 2}, past}}}, 1), {}) == WalkBound::nothing());
  }
  CHECK(bound.value({{0, 0, 0, 0}, {{{1, 2}, -200000000000000000}, {{3}, 100000000000000001}}}, {}) ==
        WalkBound::nothing());
}

TEST_CASE("No bound is above the shortest plan of its case") {
  Random random(2);
  int cases = 0;
  for (int k = 0; k < 40; k++) {
    const CvrpInstance instance = random_instance(3 + k % 4, 7, random, k % 3 == 0 ? -15 : 0);
    const Loads loads = *loads_in(instance, 1 + k % 2);
    const std::vector<Routes> plans = all_plans(instance);
    for (int trial = 0; trial < 10; trial++) {
      LeafNumbers numbers;
      std::vector<Limit> limits;
      for (int v = 0; v < instance.nodes(); v++) numbers.potentials.push_back(random.below(30) - 20);
      for (int s = 0; s < 3; s++) {
        NodeSet set = instance.customers();
        std::erase_if(set, [&](int) { return random.below(2) == 0; });
        if (set.empty()) continue;
        numbers.multipliers[set] = random.below(20) - 8;
        if (random.below(2) == 0) limits.push_back({set, random.below(2) == 0, 1 + random.below(2)});
      }
      WalkBound bound(instance, loads, 2);
      const Weight reached = bound.bound_of(bound.value(numbers, limits));
      for (const Routes& plan : plans) {
        if (!keeps(plan, limits, instance.nodes())) continue;
        cases++;
        REQUIRE(reached <= length_of(instance, plan));
      }
    }
  }
  CHECK(cases > 1000);
}

TEST_CASE("Rounded duals keep their bound but for the rounding") {
  const CvrpInstance instance = rectangle(8);
  const Loads loads = *loads_in(instance, 1);
  WalkBound bound(instance, loads, 1000);
  const Duals duals{{0, -3, -3, -3}, {}};  // the bound 18
  const LeafNumbers numbers = bound.rounded(duals, 1);
  CHECK(bound.bound_of(bound.value(numbers, {})) == 18);
  const LeafNumbers coarse = bound.rounded(duals, 250);
  for (const Weight potential : coarse.potentials) CHECK(potential % 250 == 0);
  for (const auto& [set, multiplier] : coarse.multipliers) CHECK(multiplier % 250 == 0);
}

TEST_CASE("A leaf of a tree over sets has the limits above it") {
  CvrpInstance instance = rectangle(8);
  instance.file_nodes = {2, 1, 3, 4};  // the depot is the file's node 2
  CertificateMaker maker(instance, 5, 3);
  maker.add_branch({1, 2}, 2);
  maker.add_leaf({{0, 7, 8, 9}, {}});
  maker.add_branch({2, 3}, 1);
  maker.add_leaf({{0, 1, 2, 3}, {{{1, 2}, 4}}});
  maker.add_leaf({{0, 0, 0, 0}, {}});
  const Certificate& tree = maker.certificate();
  CHECK(tree.load_unit == 3);
  CHECK(tree.families == std::vector<std::vector<NodeSet>>{{{0, 2}}, {{2, 3}}});
  const RouteCertificates certificates(instance);
  certificates.check(tree, "tree");
  const OpenLeaf leaf = leaf_of(tree, 2);
  const std::vector<Limit> limits = certificates.limits_of(tree, leaf);
  REQUIRE(limits.size() == 2);
  CHECK((limits[0].set == NodeSet{1, 2} && !limits[0].most && limits[0].t == 2));
  CHECK((limits[1].set == NodeSet{2, 3} && limits[1].most && limits[1].t == 1));
  const LeafNumbers numbers = certificates.numbers_of(tree, leaf.numbers, 10);
  CHECK(numbers.potentials == std::vector<Weight>{0, 10, 20, 30});
  CHECK(numbers.multipliers == std::map<NodeSet, Weight>{{{1, 2}, 40}});
}

TEST_CASE("Crossings are limited from both sides") {
  const CvrpInstance instance = rectangle(8);
  CHECK(free_crossings(instance, {1, 2, 3}) == Crossings{4, 6});
  const auto limited = limited_crossings(
      instance, {{{1, 2}, true, 2}, {{1, 2}, true, 1}, {{2, 3}, false, 1}, {{2, 3}, false, 0}});
  CHECK(limited.at({1, 2}) == Crossings{2, 2});
  CHECK(limited.at({2, 3}) == Crossings{4, 6});
}
