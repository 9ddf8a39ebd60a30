// Tests of subtours, of combs, and of the table of handles.
#include <algorithm>
#include <map>

#include "cuts/combs.h"
#include "cuts/subtours.h"
#include "fixtures.h"

using namespace certify;

namespace {
// Two triangles, by the value of their edges and of those between them.
Graph prism(double side, double between) {
  Graph graph(6);
  const auto join = [&](int i, int j, double value) {
    graph[i].push_back({j, value});
    graph[j].push_back({i, value});
  };
  for (const int start : {0, 3}) {
    for (int k = 0; k < 3; k++) join(start + k, start + (k + 1) % 3, side);
  }
  for (int k = 0; k < 3; k++) join(k, k + 3, between);
  return graph;
}
}  // namespace

TEST_CASE("the cut between two triangles") {
  const Graph graph = prism(0.9, 0.2);
  bool found = false;
  for (NodeSet set : crossed_too_little(graph, 0.01)) {
    std::sort(set.begin(), set.end());
    found = found || set == NodeSet{0, 1, 2} || set == NodeSet{3, 4, 5};
  }
  CHECK(found);  // the cut between two triangles
}

// The prism's half edges: the handle is a triangle, the teeth are the edges between the triangles.
TEST_CASE("the comb of a prism") {
  const Graph graph = prism(0.5, 1);
  CutPool pool(6);
  Random random(1);
  const Effort effort{.climbs = 10, .growths = 1};
  const Runs runs(graph, {0, 1, 2, 5, 4, 3}, effort.reach);
  CombSearch search(graph, pool, runs, random, effort);
  const std::vector<FoundComb> found = search.find({});
  CHECK((!found.empty() && found[0].violation > 0.99 && pool.is_comb(found[0].sets)));  // the comb of a prism
  CHECK(ViolationMeter(graph).violation(pool[pool.add_comb(found.at(0).sets)]) >
        0.99);                                                // its violation by its sets
  CHECK(!pool.is_comb({{0, 1, 2}, {0, 3}, {1, 4}}));          // two teeth are no comb
  CHECK(!pool.is_comb({{0, 1, 2}, {0, 3}, {1, 3}, {2, 5}}));  // teeth with a common node are no comb
  CHECK(!pool.is_comb({{0, 1, 2}, {0, 1}, {2, 4}, {3, 5}}));  // a tooth has nodes inside and outside
}

// It asks before it grows handles from a node, and before each climb.
TEST_CASE("a search for combs ends where it has to") {
  const Graph graph = prism(0.5, 1);
  const CutPool pool(6);
  const Effort effort{.climbs = 10, .growths = 1};
  const Runs runs(graph, {0, 1, 2, 5, 4, 3}, effort.reach);
  const auto times_asked = [&](bool ends) {
    Random random(1);
    int asked = 0;
    CombSearch(graph, pool, runs, random, effort).find({}, [&] {
      asked++;
      return ends;
    });
    return asked;
  };
  CHECK(times_asked(true) == 2);
  CHECK(times_asked(false) > 6);  // each node has fractional edges
}

// Two rings of 120 nodes each, which no edge joins.
TEST_CASE("a set may be as large as the reach says") {
  Graph graph(240);
  Tour tour;
  for (int v = 0; v < 240; v++) {
    const int next = v % 120 == 119 ? v - 119 : v + 1;
    graph[v].push_back({next, 1});
    graph[next].push_back({v, 1});
    tour.push_back(v);
  }
  CHECK(Runs(graph, tour, Reach{}).crossed_too_little(0.01).empty());
  const std::vector<NodeSet> rings = Runs(graph, tour, kFarReach).crossed_too_little(0.01);
  REQUIRE(rings.size() == 2);
  CHECK((rings[0].size() == 120 && rings[1].size() == 120));
}

TEST_CASE("a handle is known where it was put") {
  HandleTable table;
  std::map<std::uint64_t, double> same;
  Random random(4);
  for (int k = 0; k < 20000; k++) {
    const std::uint64_t hash = random.below(30000) * 0x9E3779B97F4A7C15ull + 1;
    const double violation = random.unit();
    CHECK(table.has(hash) == (same.count(hash) > 0));  // a handle is known where it was put
    table.put(hash, violation);
    same[hash] = violation;
  }
  for (const auto& [hash, violation] : same) {
    CHECK(
        (table.find(hash) != nullptr && *table.find(hash) == violation));  // the violation that was put last
  }
}
