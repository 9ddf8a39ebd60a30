#include <algorithm>
#include <cmath>
#include <tuple>
#include <utility>

#include "cuts/subtours.h"
#include "tree/kruskal_sets.h"
#include "tree/near_program.h"

namespace certify {
namespace {
constexpr double kTiny = 1e-6;
constexpr double kTie = 1e-3;  // of reduced costs
constexpr double kGap = 1e-2;  // of costs, between the levels of the first sets

NodeSet complement(const NodeSet& set, int nodes) {
  NodeSet rest;
  for (int v = 0; v < nodes; v++) {
    if (!std::binary_search(set.begin(), set.end(), v)) rest.push_back(v);
  }
  return rest;
}
}  // namespace

// Edges of the solution, of which those at node 0 are in no set.
Graph NearProgram::support() const {
  Graph support(nodes());
  const double* solution = program_.getColSolution();
  for (std::size_t column = 0; column < columns_.size(); column++) {
    const Pair& edge = columns_[column].edge;
    if (!is_edge(column) || solution[column] < kTiny) continue;
    support[edge.first].push_back({edge.second, solution[column]});
    support[edge.second].push_back({edge.first, solution[column]});
  }
  return support;
}

// Edges by their reduced costs, as Kruskal's method takes them, and of about the same those that the solution
// uses most come first.
std::vector<int> NearProgram::edges_in_order() const {
  const double* solution = program_.getColSolution();
  const std::vector<double> costs = reduced_costs();
  std::vector<std::tuple<double, double, int>> order;
  for (std::size_t column = 0; column < columns_.size(); column++) {
    if (!is_edge(column) || columns_[column].edge.first == 0 || program_.getColUpper()[column] < 0.5)
      continue;
    const bool used = program_.getColLower()[column] > 0.5;
    order.emplace_back(used ? -COIN_DBL_MAX : std::floor(costs[column] / kTie), -solution[column], column);
  }
  std::sort(order.begin(), order.end());
  std::vector<int> edges;
  edges.reserve(order.size());
  for (const auto& [cost, value, column] : order) edges.push_back(column);
  return edges;
}

// What solutions under the first costs need: without these rows some twenty rounds look for them.
void NearProgram::add_first_sets() {
  LevelSets levels(nodes(), kGap);
  const double* costs = program_.getObjCoefficients();
  for (const int column : edges_in_order()) {
    const bool used = program_.getColLower()[column] > 0.5;
    levels.take(columns_[column].edge, used ? -COIN_DBL_MAX : costs[column]);
  }
  add_sets(levels.sets());
}

void NearProgram::add_sets(std::vector<NodeSet>& sets) {
  std::vector<Row> rows;
  for (NodeSet& set : sets) {
    std::sort(set.begin(), set.end());
    rows.push_back({-1, std::move(set)});
  }
  add_rows(std::move(rows));
}

// How many joined: those that Kruskal's method meets, or else those that are crossed too little.
int NearProgram::add_violated_sets() {
  const Graph graph = support();
  ViolatedSets violated(graph);
  for (const int column : edges_in_order()) violated.take(columns_[column].edge);
  std::vector<NodeSet> sets = std::move(violated.sets());
  if (sets.empty()) {
    for (NodeSet& set : crossed_too_little(graph, kTiny)) {
      std::sort(set.begin(), set.end());
      if (set[0] == 0) set = complement(set, nodes());
      if (has_many_edges(graph, set)) sets.push_back(std::move(set));
    }
  }
  add_sets(sets);
  return static_cast<int>(sets.size());
}
}  // namespace certify
