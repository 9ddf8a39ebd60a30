// The search without a matrix: surcharges, scans, segments, programs and leaves.
#include <algorithm>
#include <cmath>
#include <numeric>

#include "fixtures.h"
#include "spanning/exact_tree.h"
#include "sparse/scan_cuts.h"
#include "sparse/segment_cuts.h"
#include "sparse/sparse_leaf.h"
#include "sparse/sparse_separation.h"
#include "tours/tours.h"
#include "tree/separation.h"
#include "tree/tree_bound.h"

using certify::CutPool;
using certify::Graph;
using certify::Instance;
using certify::Matrix;
using certify::NodeSet;
using certify::Numbers;
using certify::Pair;
using certify::Random;
using certify::Tour;
using certify::Weight;
using potentials::Points;
using potentials::Problem;
using namespace sparse;

namespace {
// The costs by the numbers of the problem.
Matrix matrix_of(const Problem& problem) {
  Matrix matrix(problem.nodes());
  for (int i = 0; i < problem.nodes(); i++) {
    for (int j = 0; j < i; j++) matrix.set(i, j, std::llround(problem.cost(i, j)));
  }
  return matrix;
}

std::vector<Pair> all_pairs(int nodes) {
  std::vector<Pair> pairs;
  for (int i = 0; i < nodes; i++) {
    for (int j = 0; j < i; j++) pairs.emplace_back(j, i);
  }
  return pairs;
}

double crossing_of(const Graph& graph, const NodeSet& set) {
  double sum = 0;
  for (const int v : set) {
    for (const certify::Edge& edge : graph[v]) {
      sum += std::find(set.begin(), set.end(), edge.to) == set.end() ? edge.value : 0;
    }
  }
  return sum;
}

// The average of some random tours, of which no set is crossed too little. Else each of them is two cycles.
Graph random_graph(int nodes, int tours, bool cycles, Random& random) {
  Matrix values(nodes);
  const auto add = [&](const Tour& cycle) {
    for (const auto& [i, j] : certify::edges_of(cycle)) values.set(i, j, values(i, j) + 12 / tours);
  };
  for (int k = 0; k < tours; k++) {
    Tour tour = in_order(nodes);
    for (int i = nodes - 1; i > 0; i--) std::swap(tour[i], tour[random.below(i + 1)]);
    const int first = cycles ? 3 + random.below(nodes - 5) : nodes;
    add(Tour(tour.begin(), tour.begin() + first));
    if (cycles) add(Tour(tour.begin() + first, tour.end()));
  }
  Graph graph(nodes);
  for (const auto& [i, j] : all_pairs(nodes)) {
    if (values(i, j) == 0) continue;
    graph[i].push_back({j, static_cast<double>(values(i, j)) / 12});
    graph[j].push_back({i, static_cast<double>(values(i, j)) / 12});
  }
  return graph;
}

// The relaxation with all subtours, and the combs of a list.
double value_by_matrix(const Instance& instance, const Tour& tour,
                       const std::vector<std::vector<NodeSet>>& combs) {
  CutPool pool(instance.nodes());
  certify::Relaxation relaxation(instance, pool, tour);
  relaxation.add_edges(instance.links_of(tour));
  for (const auto& comb : combs) relaxation.add_cuts({pool.add_comb(comb)});
  certify::Separation separation(instance.weights, pool, relaxation, 1);
  separation.set_tours(tour, {});
  do {
    relaxation.solve();
  } while (separation.add_subtours());
  return relaxation.value();
}

const std::vector<std::vector<NodeSet>> kCombs{{{0, 1, 2}, {0, 3}, {1, 4}, {2, 5}},
                                               {{6, 7, 8, 9, 10, 11}, {6, 12}, {7, 8, 13}, {9, 14, 15}}};
}  // namespace

TEST_CASE("least 1-trees with surcharges are those of all pairs") {
  Random random(1);
  for (int round = 0; round < 20; round++) {
    const int nodes = 12 + random.below(60);
    std::vector<Pair> fixed;
    if (round % 2 == 1) fixed = {{3, 4}, {4, 7}, {9, 0}};
    const Problem problem(points_in_plane(nodes, random), fixed);
    std::vector<double> numbers(nodes);
    for (double& number : numbers) number = random.below(400) - 300;
    potentials::PairSurcharges surcharges(nodes);
    std::vector<NodeSet> sets(8);
    for (NodeSet& set : sets) {
      const int first = random.below(nodes - 8);
      for (int v = first; v < first + 8; v += 1 + random.below(2)) set.push_back(v);
      surcharges.add(set, random.below(300));
    }
    std::vector<potentials::Edge> some;
    for (int v = 1; v < nodes; v++) some.push_back(problem.edge(v - 1, v));
    double sum = 0;
    for (const potentials::Edge& edge : potentials::exact_tree(problem, numbers, some, &surcharges)) {
      sum += problem.cost(edge.a, edge.b) + numbers[edge.a] + numbers[edge.b] +
             surcharges.between(edge.a, edge.b);
    }
    CHECK(sum == Approx(least_tree(problem, numbers, surcharges)));
  }
}

TEST_CASE("scans find a set that is crossed too little where there is one") {
  Random random(2);
  int found = 0;
  for (int round = 0; round < 300; round++) {
    const int nodes = 6 + random.below(5);
    const Graph graph = random_graph(nodes, 1 + random.below(3), round % 3 > 0, random);
    const std::vector<NodeSet> sets = small_cuts(graph, 0.01);
    bool small = false;
    for (const NodeSet& set : sets) CHECK(crossing_of(graph, set) < 1.99);
    for (int mask = 1; mask < 1 << (nodes - 1); mask++) {
      NodeSet set;
      for (int v = 0; v < nodes - 1; v++) {
        if ((mask >> v & 1) != 0) set.push_back(v);
      }
      small = small || (set.size() > 1 && set.size() + 1 < graph.size() && crossing_of(graph, set) < 1.99);
    }
    const bool any =
        std::any_of(sets.begin(), sets.end(), [&](const NodeSet& set) { return set.size() < graph.size(); });
    CHECK(any == small);
    found += small ? 1 : 0;
  }
  CHECK(found > 20);
}

TEST_CASE("segments of a tour are found that are crossed least") {
  Random random(12);
  int found = 0;
  for (int round = 0; round < 200; round++) {
    const int nodes = 6 + random.below(12);
    const Graph graph = random_graph(nodes, 1 + random.below(3), true, random);
    Tour tour;
    for (const NodeSet& part : certify::components(graph, [](double value) { return value > 0.4; })) {
      tour.insert(tour.end(), part.begin(), part.end());
    }
    std::swap(tour[random.below(nodes)], tour[random.below(nodes)]);
    double least = 1.99;
    for (int first = 1; first < nodes; first++) {
      for (int last = first; last < nodes; last++) {
        least = std::min(least, crossing_of(graph, {tour.begin() + first, tour.begin() + last + 1}));
      }
    }
    const std::vector<NodeSet> sets = segment_cuts(graph, tour, 0.01);
    CHECK(sets.empty() == (least > 1.99 - 1e-9));
    if (!sets.empty()) CHECK(crossing_of(graph, sets[0]) == Approx(least).margin(1e-9));
    for (const NodeSet& set : sets) CHECK(crossing_of(graph, set) < 1.99);
    found += sets.empty() ? 0 : 1;
  }
  CHECK(found > 20);
}

TEST_CASE("sparse programs have the values of programs over a matrix") {
  Random random(3);
  const certify::Clock clock(0);
  for (int round = 0; round < 6; round++) {
    const int nodes = 40;
    const Problem problem(points_in_plane(nodes, random), {});
    const Instance instance{matrix_of(problem), {}};
    const Tour tour = potentials::first_tour(problem);
    CutPool pool(nodes);
    SparseProgram program(problem, pool, tour, clock);
    program.add_candidates(all_pairs(nodes));
    std::vector<int> combs;
    combs.reserve(kCombs.size());
    for (const auto& comb : kCombs) combs.push_back(pool.add_comb(comb));
    program.add_cuts(combs);
    SparseSeparation separation(problem, pool, program, clock, 1);
    int cuts = 0;
    do {
      REQUIRE(program.solve());
      if (round % 2 == 1) program.drop_edges();
      if (round % 3 == 1) program.purge(3);
      cuts = separation.add_subtours();
    } while (cuts > 0);
    const double expected = value_by_matrix(instance, tour, kCombs);
    CHECK(program.value() == Approx(expected).epsilon(1e-7));
    // the numbers are worth as much, where edges of trees join
    SparseLeaf leaf(problem, pool, program.average());
    const Numbers numbers = leaf.extract(program);
    const double bound =
        static_cast<double>(leaf.value(numbers, program.edges())) / static_cast<double>(leaf.scale());
    CHECK(bound <= program.value() + 0.01);
    CHECK(bound > program.value() - 0.1);
  }
}

TEST_CASE("sparse programs that drop tight combs have the values of programs without them") {
  Random random(14);
  const certify::Clock clock(0);
  int tight = 0;
  for (int round = 0; round < 5; round++) {
    const int nodes = 150;
    const Problem problem(points_in_plane(nodes, random), {});
    const Tour tour = potentials::first_tour(problem);
    CutPool pool(nodes);
    SparseProgram program(problem, pool, tour, clock), other(problem, pool, tour, clock);
    for (SparseProgram* each : {&program, &other}) each->add_candidates(all_pairs(nodes));
    SparseSeparation separation(problem, pool, program, clock, 1);
    separation.set_tours({tour});
    for (int k = 0; k < 12; k++) {
      REQUIRE(program.solve());
      if (separation.add_subtours() == 0) separation.add_combs(0, false);
    }
    REQUIRE(program.solve());
    std::vector<std::size_t> rows;
    for (std::size_t row = 0; row < program.cuts().size(); row++) {
      const bool goes = row % 3 > 0;
      if (!goes) rows.push_back(row);
      const bool comb = pool[program.cuts()[row]].kind == certify::CutKind::kComb;
      tight += goes && comb && program.cut_dual(row) > 0 ? 1 : 0;
    }
    const double before = program.value();
    program.keep_combs(rows);
    REQUIRE(program.solve());
    CHECK(program.value() < before + 1e-6);
    other.add_cuts(program.cuts());
    REQUIRE(other.solve());
    CHECK(program.value() == Approx(other.value()).epsilon(1e-7));
  }
  CHECK(tight > 5);
}

TEST_CASE("the bound of a sparse leaf is that of its certificate") {
  Random random(4);
  for (int round = 0; round < 10; round++) {
    const int nodes = 20;
    const Points points = points_in_plane(nodes, random);
    const Problem problem(points, {});
    Matrix weights(nodes);
    for (const auto& [i, j] : all_pairs(nodes)) weights.set(i, j, std::llround(points.cost(i, j)));
    CutPool pool(nodes);
    const SparseLeaf plain(problem, pool, 250);
    Numbers numbers;
    for (int v = 0; v < nodes; v++) numbers.potentials.push_back(random.below(20000) - 10000);
    for (const auto& comb : kCombs) numbers.multipliers[pool.add_comb(comb)] = random.below(5000);
    SparseLeaf leaf(problem, pool, 250);
    const certify::Value value = leaf.value(numbers, {});
    const certify::Certificate certificate = leaf.certificate(numbers);
    CutPool own(nodes);
    Numbers outward = std::get<Numbers>(certificate.steps[0]);
    const std::map<int, Weight> multipliers = std::exchange(outward.multipliers, {});
    for (const auto& [family, multiplier] : multipliers) {
      outward.multipliers[certify::add_family(own, certificate.families[family], nodes)] = multiplier;
    }
    CHECK(leaf.scale() == 1000);
    CHECK(value == certify::TreeBound(weights, own, certificate.scale).value(outward, {}));
  }
}

TEST_CASE("the median of a leaf's potentials is 0, which changes no bound") {
  Random random(9);
  const int nodes = 31;
  const Problem problem(points_in_plane(nodes, random), {});
  CutPool pool(nodes);
  SparseLeaf leaf(problem, pool, 250);
  std::vector<double> potentials(nodes);
  for (double& potential : potentials) potential = 5000 + random.below(100);
  const Numbers numbers = leaf.alone(potentials);
  std::vector<Weight> sorted = numbers.potentials;
  std::sort(sorted.begin(), sorted.end());
  CHECK(sorted[nodes / 2] == 0);
  const double sum = 2 * std::accumulate(potentials.begin(), potentials.end(), 0.0);
  CHECK(static_cast<double>(leaf.value(numbers, {})) / static_cast<double>(leaf.scale()) ==
        Approx(least_tree(problem, potentials, potentials::PairSurcharges(nodes)) - sum));
}
