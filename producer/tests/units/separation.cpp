// Separation and branching on fractional points that are drawn by hand.
#include <algorithm>

#include "cuts/combs.h"
#include "cuts/subtours.h"
#include "fixtures.h"
#include "memory/run_branching.h"
#include "routes/capacity_cuts.h"
#include "tree/branching.h"

using namespace certify;
using namespace certify::routes;

namespace {
class Drawing {
 public:
  explicit Drawing(int nodes) : graph_(nodes) {}
  void link(int a, int b, double value) {
    graph_[a].push_back({b, value});
    graph_[b].push_back({a, value});
  }
  void ring(const NodeSet& nodes, double value) {
    for (std::size_t k = 0; k < nodes.size(); k++) link(nodes[k], nodes[(k + 1) % nodes.size()], value);
  }
  void path(const NodeSet& nodes) {
    for (std::size_t k = 1; k < nodes.size(); k++) link(nodes[k - 1], nodes[k], 1);
  }
  const Graph& graph() const { return graph_; }

 private:
  Graph graph_;
};

double crossings(const Graph& graph, const NodeSet& set) {
  double sum = 0;
  for (const int v : set) {
    for (const Edge& edge : graph[v]) {
      if (std::find(set.begin(), set.end(), edge.to) == set.end()) sum += edge.value;
    }
  }
  return sum;
}

// The combs of a point, with these handles to begin with and runs of a tour as teeth, and whether each is as
// violated as it says.
std::vector<FoundComb> combs_of(const Graph& graph, const Tour& tour,
                                const std::vector<NodeSet>& handles = {}) {
  const CutPool pool(static_cast<int>(graph.size()));
  Random random(1);
  const Effort effort{.climbs = 20, .growths = 2};
  const Runs runs(graph, tour, effort.reach);
  std::vector<FoundComb> found = CombSearch(graph, pool, runs, random, effort).find(handles);
  for (const FoundComb& comb : found) {
    CHECK(pool.is_comb(comb.sets));
    double crossed = 0;
    for (const NodeSet& set : comb.sets) crossed += crossings(graph, set);
    const auto teeth = static_cast<double>(comb.sets.size() - 1);
    CHECK(3 * teeth + 1 - crossed == Approx(comb.violation).margin(1e-6));
  }
  return found;
}

// Two rings of as many nodes with the value 1/2, joined by whole paths with a node between.
Drawing crown(int teeth) {
  Drawing drawing(3 * teeth);
  NodeSet inner, outer;
  for (int k = 0; k < teeth; k++) {
    inner.push_back(k);
    outer.push_back(2 * teeth + k);
    drawing.path({k, teeth + k, 2 * teeth + k});
  }
  drawing.ring(inner, 0.5);
  drawing.ring(outer, 0.5);
  return drawing;
}
}  // namespace

// The handle is a ring, which is crossed as often as there are teeth, and each tooth is a link of a path.
TEST_CASE("combs of a crown with an odd number of paths") {
  for (const int teeth : {3, 5, 7}) {
    const Graph graph = crown(teeth).graph();
    const std::vector<FoundComb> found = combs_of(graph, in_order(3 * teeth));
    REQUIRE_FALSE(found.empty());
    CHECK(found[0].violation == Approx(1).margin(1e-6));
    CHECK(static_cast<int>(found[0].sets.size()) == teeth + 1);
    for (int v = 0; v < 3 * teeth; v++) CHECK(crossings(graph, {v}) == Approx(2));
  }
}

// Each comb has an odd number of teeth: without one of four it isn't violated.
TEST_CASE("a crown with an even number of paths has no violated comb") {
  for (const int teeth : {4, 6}) CHECK(combs_of(crown(teeth).graph(), in_order(3 * teeth)).empty());
}

TEST_CASE("a tour breaks neither a comb nor a set") {
  Drawing drawing(12);
  drawing.ring(in_order(12), 1);
  CHECK(combs_of(drawing.graph(), in_order(12)).empty());
  for (const NodeSet& set : crossed_too_little(drawing.graph(), 0.01)) {
    CHECK((set.size() == 12 || crossings(drawing.graph(), set) > 2 - 1e-6));
  }
}

// Teeth of three nodes, two of them in the handle: 0 1 2, where 0 and 1 are joined wholly, and 2 to both by a
// half. From 2 a whole path leads to 4. The second nodes of teeth lead to the first ones of the next, and the
// ends of paths to each other, by halves. So teeth are crossed twice and the handle three times: 9 = 10 - 1.
TEST_CASE("a comb whose teeth aren't links") {
  Drawing drawing(15);
  for (const int tooth : {0, 5, 10}) {
    drawing.link(tooth, tooth + 1, 1);
    drawing.link(tooth, tooth + 2, 0.5);
    drawing.link(tooth + 1, tooth + 2, 0.5);
    drawing.path({tooth + 2, tooth + 3, tooth + 4});
    drawing.link(tooth + 1, (tooth + 5) % 15, 0.5);
    drawing.link(tooth + 4, (tooth + 9) % 15, 0.5);
  }
  for (int v = 0; v < 15; v++) CHECK(crossings(drawing.graph(), {v}) == Approx(2));
  const std::vector<FoundComb> found = combs_of(drawing.graph(), in_order(15), {{0, 1, 5, 6, 10, 11}});
  CHECK(std::any_of(found.begin(), found.end(), [](const FoundComb& comb) {
    return comb.violation > 1 - 1e-4 && comb.sets[1].size() == 3 && comb.sets[2].size() == 3;
  }));
}

namespace {
CvrpInstance customers_with(const std::vector<Weight>& demands, Weight capacity) {
  const int nodes = static_cast<int>(demands.size()) + 1;
  CvrpInstance instance{Matrix(nodes), {0}, capacity, {}, true};
  for (int v = 0; v < nodes; v++) {
    instance.file_nodes.push_back(v + 1);
    if (v > 0) instance.demands.push_back(demands[v - 1]);
    for (int u = 0; u < v; u++) instance.costs.set(u, v, 10);
  }
  return instance;
}

std::vector<CapacityCut> capacity_cuts(const CvrpInstance& instance, const Graph& graph) {
  return CapacityCuts(instance, 1).violated(graph, true, 0.02);
}
}  // namespace

// One route 0 1 2 3 4 0 for a demand of 12, where 10 fit. Each two routes cross the set four times.
TEST_CASE("a route that is too heavy is a capacity cut") {
  const CvrpInstance instance = customers_with({3, 3, 3, 3, 1}, 10);
  Drawing drawing(6);
  drawing.ring({0, 1, 2, 3, 4}, 1);
  drawing.link(0, 5, 2);
  const std::vector<CapacityCut> found = capacity_cuts(instance, drawing.graph());
  REQUIRE_FALSE(found.empty());
  CHECK(found[0].set == NodeSet{1, 2, 3, 4});
  CHECK(found[0].slack == Approx(-2));
}

// The same route with a demand of 10, which fits.
TEST_CASE("a route that is full is none") {
  const CvrpInstance instance = customers_with({3, 3, 3, 1, 1}, 10);
  Drawing drawing(6);
  drawing.ring({0, 1, 2, 3, 4}, 1);
  drawing.link(0, 5, 2);
  CHECK(capacity_cuts(instance, drawing.graph()).empty());
}

// Half of each of four routes, of which three come to the customers 1 to 4, with a demand of 12.
TEST_CASE("a fractional point that crosses a set three times where four are needed") {
  const CvrpInstance instance = customers_with({3, 3, 3, 3, 2, 2}, 10);
  Drawing drawing(7);
  const auto half = [&](const NodeSet& route) {
    int last = 0;
    for (const int v : route) {
      drawing.link(last, v, 0.5);
      last = v;
    }
    drawing.link(last, 0, 0.5);
  };
  half({1, 2, 3});
  half({1, 2, 4});
  half({3, 4, 5, 6});
  half({5, 6});
  const std::vector<CapacityCut> found = capacity_cuts(instance, drawing.graph());
  REQUIRE_FALSE(found.empty());
  CHECK(found[0].set == NodeSet{1, 2, 3, 4});
  CHECK(found[0].slack == Approx(-1));
}

// Two triangles with sides of 1, and edges of 2 between them: the solution has a half of each side.
TEST_CASE("a branch is on an edge that a solution uses in part, and both cases exclude it") {
  Matrix weights(6);
  for (int i = 0; i < 6; i++) {
    for (int j = 0; j < i; j++) weights.set(i, j, i / 3 == j / 3 ? 1 : i == j + 3 ? 0 : 9);
  }
  CutPool pool(6);
  const Instance instance{weights, {}, false};
  Relaxation relaxation(instance, pool, {0, 1, 4, 3, 5, 2});
  relaxation.add_edges(edges_of({0, 1, 2, 5, 4, 3}));
  relaxation.add_edges({{0, 2}, {3, 5}, {1, 4}});
  relaxation.add_cuts({pool.add_subtour({0, 1, 2})});
  relaxation.solve();
  CHECK(relaxation.value() == Approx(3));  // six halves
  Branching branching(weights);
  const std::optional<Pair> pair = branching.choose(relaxation, 5);
  REQUIRE(pair);
  CHECK(pair->first / 3 == pair->second / 3);  // a side
  for (const bool used : {true, false}) {
    relaxation.decide({*pair, used});
    relaxation.solve();
    CHECK(relaxation.value() > 3 + 1e-6);
    relaxation.release(*pair);
  }
}

TEST_CASE("a whole solution has no edge to branch on") {
  Matrix weights(5);
  for (int i = 0; i < 5; i++) {
    for (int j = 0; j < i; j++) weights.set(i, j, i == j + 1 || i - j == 4 ? 1 : 5);
  }
  CutPool pool(5);
  const Instance instance{weights, {}, false};
  Relaxation relaxation(instance, pool, in_order(5));
  relaxation.add_edges(edges_of(in_order(5)));
  relaxation.solve();
  CHECK_FALSE(Branching(weights).choose(relaxation, 5));
}

// Two customers fill a route. Half of the route of each pair among 1 2 3, and among 4 5 6, costs 30 for three
// routes, as a plan does.
TEST_CASE("a branch by runs is on a set that is crossed between two even numbers of times") {
  const CvrpInstance instance = customers_with({1, 1, 1, 1, 1, 1}, 2);
  const auto loads = loads_in(instance, 1);
  RunProgram program(instance, nearest_memory(instance, 3));
  program.add_runs({{1, 2}, {1, 3}, {2, 3}, {4, 5}, {4, 6}, {5, 6}});
  program.rebuild();
  CHECK(program.value() == Approx(90));  // three routes at 30, of two customers each
  LabelSearch labels(instance, *loads);
  const auto branch = choose_run_branch({instance, *loads, program, labels, 120}, {});
  REQUIRE(branch);
  const double crossed = crossings(program.support(), branch->set);
  CHECK(crossed > 2 * branch->t);
  CHECK(crossed < 2 * branch->t + 2);
}

TEST_CASE("a plan has no set to branch on") {
  const CvrpInstance instance = customers_with({1, 1, 1, 1, 1, 1}, 2);
  const auto loads = loads_in(instance, 1);
  RunProgram program(instance, nearest_memory(instance, 3));
  program.add_runs({{1, 2}, {3, 4}, {5, 6}});
  program.rebuild();
  LabelSearch labels(instance, *loads);
  CHECK_FALSE(choose_run_branch({instance, *loads, program, labels, 120}, {}));
}
