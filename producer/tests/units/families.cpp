// Tests of families and quotient cuts: crossings, bonds, tours of atoms, and their linear program.
#include "cuts/families.h"

#include <algorithm>
#include <cmath>
#include <numeric>

#include "cuts/atom_tours.h"
#include "cuts/bonds.h"
#include "cuts/quotient_simplex.h"
#include "cuts/quotients.h"
#include "cuts/tightening.h"
#include "fixtures.h"

using namespace certify;

namespace {
// How often a tour crosses the sets.
int crossings(const Tour& tour, const std::vector<NodeSet>& sets) {
  int count = 0;
  for (const auto& [i, j] : arcs_of(tour)) {
    for (const NodeSet& set : sets) {
      count += std::count(set.begin(), set.end(), i) != std::count(set.begin(), set.end(), j) ? 1 : 0;
    }
  }
  return count;
}

int least_crossings(const std::vector<NodeSet>& sets, int nodes) {
  Tour tour(nodes);
  std::iota(tour.begin(), tour.end(), 0);
  int least = crossings(tour, sets);
  while (std::next_permutation(tour.begin() + 1, tour.end())) least = std::min(least, crossings(tour, sets));
  return least;
}

void join(Graph& graph, int i, int j, double value) {
  graph[i].push_back({j, value});
  graph[j].push_back({i, value});
}

// Two triangles of half edges, and whole edges between them.
Graph prism() {
  Graph graph(6);
  for (const int start : {0, 3}) {
    for (int k = 0; k < 3; k++) join(graph, start + k, start + (k + 1) % 3, 0.5);
  }
  for (int k = 0; k < 3; k++) join(graph, k, k + 3, 1);
  return graph;
}

std::vector<NodeSet> single_nodes(int count) {
  std::vector<NodeSet> sets;
  sets.reserve(count);
  for (int v = 0; v < count; v++) sets.push_back({v});
  return sets;
}
}  // namespace

// The worked examples of the format: the comb of a prism with a tooth's complement, and so on.
TEST_CASE("required crossings by hand") {
  CHECK(required_crossings({{0, 1, 2}, {1, 2, 4, 5}, {1, 4}, {2, 5}}, 6) == 10);
  CHECK(required_crossings({{0, 1, 2}, {0, 3}, {1, 4}, {2, 5}}, 6) == 10);
  CHECK(required_crossings({{0, 1, 2}, {0, 3}, {1, 4}}, 6) == 6);
  CHECK(required_crossings({{0, 1, 2}, {0, 1, 2}}, 6) == 4);
  CHECK(required_crossings(single_nodes(13), 14) == 26);
  CHECK(!required_crossings(single_nodes(14), 15));
  CHECK(!required_crossings(std::vector<NodeSet>(64, {0, 1}), 6));
  CHECK(required_crossings(std::vector<NodeSet>(63, {0, 1}), 6) == 126);
}

TEST_CASE("required crossings are the least of all tours") {
  Random random(31);
  for (int trial = 0; trial < 100; trial++) {
    std::vector<NodeSet> sets(1 + random.below(5));
    for (NodeSet& set : sets) {
      for (int v = 0; v < 7; v++) {
        if (random.below(2) == 1) set.push_back(v);
      }
    }
    CHECK(required_crossings(sets, 7) == least_crossings(sets, 7));
  }
}

TEST_CASE("all bonds of a small graph, and no other set") {
  Random random(32);
  for (int trial = 0; trial < 20; trial++) {
    const int atoms = 7;
    AtomGraph graph{};
    for (int a = 0; a < atoms; a++) {
      for (int b = 0; b < a; b++) {
        if (random.below(2) == 1) graph[a][b] = graph[b][a] = 0.25 * (1 + random.below(4));
      }
    }
    const auto connected = [&](std::uint32_t set) {
      std::uint32_t seen = set & (~set + 1);
      for (int step = 0; step < atoms; step++) {
        for (int a = 0; a < atoms; a++) {
          for (int b = 0; b < atoms; b++) {
            if ((seen >> a & 1) != 0 && (set >> b & 1) != 0 && graph[a][b] > 0) seen |= 1U << b;
          }
        }
      }
      return seen == set;
    };
    std::vector<std::uint32_t> wanted;
    for (std::uint32_t set = 1; set < 64; set++) {
      double crossed = 0;
      for (int a = 0; a < atoms; a++) {
        for (int b = 0; b < a; b++) crossed += ((set >> a ^ set >> b) & 1) != 0 ? graph[a][b] : 0;
      }
      if (crossed <= 4.6 && connected(set) && connected(127 & ~set)) wanted.push_back(set);
    }
    std::vector<std::uint32_t> found;
    for (const auto& [crossed, set] : bonds_of(graph, atoms, 1000)) found.push_back(set);
    std::sort(found.begin(), found.end());
    CHECK(found == wanted);
  }
}

TEST_CASE("the shortest tours of atoms") {
  Random random(33);
  for (int trial = 0; trial < 30; trial++) {
    const int atoms = 7;
    std::vector<std::pair<std::uint32_t, double>> multipliers;
    multipliers.reserve(6);
    for (int k = 0; k < 6; k++) multipliers.emplace_back(1 + random.below(62), 0.25 * (1 + random.below(3)));
    const auto length = [&](const AtomTour& tour) {
      double sum = 0;
      for (const auto& [a, b] : arcs_of(tour)) {
        for (const auto& [set, value] : multipliers) sum += ((set >> a ^ set >> b) & 1) != 0 ? value : 0;
      }
      return sum;
    };
    AtomTour tour(atoms);
    std::iota(tour.begin(), tour.end(), 0);
    double least = length(tour);
    while (std::next_permutation(tour.begin(), tour.end() - 1)) least = std::min(least, length(tour));
    const AtomTours tours(atoms, multipliers);
    const auto found = tours.shortest(static_cast<float>(least) + 0.01F, 3);
    if (!found.empty()) CHECK(std::abs(length(found[0]) - least) < 1e-4);
    CHECK(tours.shortest(static_cast<float>(least) - 0.01F, 3).empty());
    for (const AtomTour& each : tours.by_local_search({tour}, 1e6F, 3))
      CHECK(length(each) <= length(tour) + 1e-4);
  }
}

// Least x + y with 2x + y >= 1 and x + 3y >= 1: x = 2/5, y = 1/5.
TEST_CASE("a linear program by hand") {
  QuotientSimplex program({1, 1});
  std::vector<std::uint32_t> row(in_whole_blocks(2), 0);
  row[0] = 2;
  row[1] = 1;
  program.add_row(row);
  CHECK(program.solve(10));
  CHECK(std::abs(program.objective() - 0.5) < 1e-5);
  row[0] = 1;
  row[1] = 3;
  program.add_row(row);
  CHECK(program.solve(10));
  CHECK(std::abs(program.objective() - 0.6) < 1e-5);
  CHECK(program.tight_rows().size() == 2);
}

TEST_CASE("the family of a prism is found") {
  const Graph graph = prism();
  const std::vector<const NodeSet*> tight;
  Random random(1);
  std::unordered_set<std::uint64_t> tried;
  const Tour tour{0, 1, 2, 5, 4, 3};
  const Effort effort{.atoms = 12, .chunks = 100};
  QuotientSearch search(graph, tight, tour, random, tried, effort);
  const std::vector<Family> found = search.find();
  REQUIRE(!found.empty());
  for (const Family& family : found) {
    CHECK(family.required == least_crossings(family.sets, 6));
    CutPool pool(6);
    CHECK(ViolationMeter(graph).violation(pool[pool.add_family(family.sets, family.required)]) > 0.01);
  }
}

// Node 6 lies between the ends of a tooth, and is in no set. Node 7 keeps its atom from being emptied.
TEST_CASE("tightening moves a node to the atom that it hangs on") {
  Graph graph(8);
  for (const int start : {0, 3}) {
    for (int k = 0; k < 3; k++) join(graph, start + k, start + (k + 1) % 3, 0.5);
  }
  for (const Pair& pair : {Pair(0, 3), Pair(1, 4), Pair(2, 6), Pair(6, 5)})
    join(graph, pair.first, pair.second, 1);
  join(graph, 3, 7, 0.5);
  join(graph, 7, 4, 0.5);
  CutPool pool(8);
  const Cut comb = pool[pool.add_comb({{0, 1, 2}, {0, 3}, {1, 4}, {2, 5}})];
  const auto moved = tightened(comb, graph);
  REQUIRE(moved);
  CHECK(required_crossings(*moved, 8) == comb.crossings);
  const Cut& better = pool[pool.add_family(*moved, comb.crossings)];
  CHECK(ViolationMeter(graph).violation(better) >= ViolationMeter(graph).violation(comb) + 2 - 1e-9);
}
