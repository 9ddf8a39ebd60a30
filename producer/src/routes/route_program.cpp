#include "routes/route_program.h"

#include <algorithm>

namespace certify::routes {
namespace {
constexpr double kTiny = 1e-7;
}  // namespace

int crossings_of(const Route& route, const std::vector<char>& inside) {
  int crossings = 0, last = 0;
  for (const int v : route) {
    crossings += static_cast<int>(inside[v] != inside[last]);
    last = v;
  }
  return crossings + static_cast<int>(inside[last] != inside[0]);
}

void RouteProgram::list_visits(const Route& route, Columns& columns) {
  Route visited(route);
  std::sort(visited.begin(), visited.end());
  for (auto visit = visited.begin(); visit != visited.end();) {
    const auto next = std::upper_bound(visit, visited.end(), *visit);
    columns.add(*visit - 1, static_cast<double>(next - visit));
    visit = next;
  }
}

void RouteProgram::add_columns(const Columns& columns) {
  if (columns.costs.empty()) return;
  program_.addColumns(static_cast<int>(columns.costs.size()), nullptr, nullptr, columns.costs.data(),
                      columns.starts.data(), columns.rows.data(), columns.elements.data());
}

std::vector<double> RouteProgram::potentials() const {
  const double* const duals = program_.dualRowSolution();
  std::vector<double> potentials(instance_.nodes(), 0);
  for (int v = 1; v < instance_.nodes(); v++) potentials[v] = -duals[v - 1] / 2;
  return potentials;
}

Graph RouteProgram::support() const {
  std::map<Pair, double> uses;
  const double* const solution = program_.primalColumnSolution() + first_;
  for (std::size_t k = 0; k < routes_.size(); k++) {
    if (solution[k] < kTiny) continue;
    int last = 0;
    for (const int v : routes_[k]) {
      uses[std::minmax(last, v)] += solution[k];
      last = v;
    }
    if (last != 0) uses[Pair(0, last)] += solution[k];
  }
  Graph support(instance_.nodes());
  for (const auto& [pair, value] : uses) {
    support[pair.first].push_back({pair.second, value});
    support[pair.second].push_back({pair.first, value});
  }
  return support;
}

std::vector<Route> RouteProgram::best_routes(std::size_t most, std::size_t fewest_customers) const {
  const double* const costs = program_.dualColumnSolution() + first_;
  std::vector<std::pair<double, std::size_t>> order;
  for (std::size_t k = 0; k < routes_.size(); k++) {
    if (routes_[k].size() >= fewest_customers) order.emplace_back(costs[k], k);
  }
  std::sort(order.begin(), order.end());
  order.resize(std::min(order.size(), most));
  std::vector<Route> best;
  best.reserve(order.size());
  for (const auto& [cost, k] : order) best.push_back(routes_[k]);
  return best;
}

void RouteProgram::list_crossings(const std::vector<char>& inside, std::vector<int>& columns,
                                  std::vector<double>& elements) const {
  for (std::size_t k = 0; k < routes_.size(); k++) {
    const int crossings = routes_[k].empty() ? 0 : crossings_of(routes_[k], inside);
    if (crossings == 0) continue;
    columns.push_back(first_ + static_cast<int>(k));
    elements.push_back(crossings);
  }
}

std::array<double, 2> RouteProgram::gains_by(const NodeSet& set, int t, int iterations,
                                             double without) const {
  std::array<double, 2> gains{};
  std::vector<int> columns;
  std::vector<double> elements;
  list_crossings(marks_of(set, instance_.nodes()), columns, elements);
  const CoinBigIndex starts[] = {0, static_cast<CoinBigIndex>(columns.size())};
  for (const int side : {0, 1}) {
    ClpSimplex trial(program_);
    const double low = side == 0 ? -COIN_DBL_MAX : 2 * t + 2, high = side == 0 ? 2 * t : COIN_DBL_MAX;
    trial.addRows(1, &low, &high, starts, columns.data(), elements.data());
    trial.setMaximumIterations(iterations);
    trial.dual(0);
    gains[side] = trial.status() == 1 ? without : trial.objectiveValue() - value();
  }
  return gains;
}
}  // namespace certify::routes
