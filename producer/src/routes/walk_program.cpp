#include "routes/walk_program.h"

#include <algorithm>
#include <cmath>

#include "routes/route_parameters.h"

namespace certify::routes {
namespace {
constexpr double kTiny = 1e-7;
}  // namespace

WalkProgram::WalkProgram(const CvrpInstance& instance, Weight length)
    : RouteProgram(instance),
      unit_(unit_of_costs(instance)),
      penalty_(std::max<double>(
          10, static_cast<double>(std::max(std::abs(length), largest_cost(instance))) / unit_)) {
  program_.setLogLevel(0);
  program_.scaling(0);
  program_.resize(customers(), 0);
  for (int row = 0; row < customers(); row++) program_.setRowBounds(row, 1, 1);
  add_sets({instance.customers()});
  rows_[0].limited = true;  // (it is never dropped)
  std::vector<Route> alone;
  for (const int v : instance.customers()) alone.push_back({v});
  add_walks(alone);
}

int WalkProgram::add_sets(const std::vector<NodeSet>& sets) {
  const std::size_t before = rows_.size();
  std::vector<CoinBigIndex> starts{0};
  std::vector<int> columns;
  std::vector<double> elements, low, high;
  for (const NodeSet& set : sets) {
    if (!places_.emplace(set, static_cast<int>(rows_.size())).second) continue;
    rows_.push_back({set, marks_of(set, instance_.nodes()), free_crossings(instance_, set)});
    list_crossings(rows_.back().inside, columns, elements);
    starts.push_back(static_cast<CoinBigIndex>(columns.size()));
    low.push_back(rows_.back().crossings.low);
    high.push_back(rows_.back().crossings.high);
  }
  const int added = static_cast<int>(rows_.size() - before);
  if (added > 0) {
    program_.addRows(added, low.data(), high.data(), starts.data(), columns.data(), elements.data());
  }
  return added;
}

void WalkProgram::limit(const NodeSet& set, const Crossings& crossings) {
  add_sets({set});
  const int place = places_.at(set), row = customers() + place;
  rows_[place].crossings = crossings;
  rows_[place].limited = true;
  program_.setRowBounds(row, crossings.low, crossings.high);
  for (const double element : {1.0, -1.0}) {
    program_.addColumn(1, &row, &element, 0, COIN_DBL_MAX, penalty_);
    routes_.emplace_back();
  }
}

int WalkProgram::add_walks(const std::vector<Route>& walks) {
  Columns columns;
  for (const Route& walk : walks) {
    if (!known_.insert(walk).second) continue;
    list_visits(walk, columns);
    for (std::size_t row = 0; row < rows_.size(); row++) {
      const int crossings = crossings_of(walk, rows_[row].inside);
      if (crossings > 0) columns.add(customers() + static_cast<int>(row), crossings);
    }
    columns.end(static_cast<double>(length_of(instance_, walk)) / unit_);
    routes_.push_back(walk);
  }
  add_columns(columns);
  return static_cast<int>(columns.costs.size());
}

void WalkProgram::solve() {
  program_.primal(0);
  if (program_.status() != 0) program_.dual(0);
  for (std::size_t row = 0; row < rows_.size(); row++) {
    const bool slack = program_.getRowStatus(customers() + static_cast<int>(row)) == ClpSimplex::basic;
    rows_[row].slack_solutions = slack ? rows_[row].slack_solutions + 1 : 0;
  }
}

bool WalkProgram::is_broken() const {
  const double* const solution = program_.primalColumnSolution();
  for (std::size_t column = 0; column < routes_.size(); column++) {
    if (routes_[column].empty() && solution[column] > 1e-5) return true;
  }
  return false;
}

void WalkProgram::raise_penalty() {
  penalty_ *= 10;
  for (std::size_t column = 0; column < routes_.size(); column++) {
    if (routes_[column].empty()) program_.setObjectiveCoefficient(static_cast<int>(column), penalty_);
  }
}

Duals WalkProgram::duals() const {
  const double* const values = program_.dualRowSolution();
  Duals duals{potentials(), {}};
  for (std::size_t row = 0; row < rows_.size(); row++) {
    const double value = values[customers() + static_cast<int>(row)];
    if (std::abs(value) > kTiny) duals.multipliers[rows_[row].set] = value;
  }
  return duals;
}

void WalkProgram::drop_sets(int age) {
  std::vector<int> dropped;
  std::vector<Row> left;
  for (std::size_t row = 0; row < rows_.size(); row++) {
    if (!rows_[row].limited && rows_[row].slack_solutions > age) {
      dropped.push_back(customers() + static_cast<int>(row));
    } else {
      left.push_back(std::move(rows_[row]));
    }
  }
  rows_ = std::move(left);
  if (!dropped.empty()) program_.deleteRows(static_cast<int>(dropped.size()), dropped.data());
  places_.clear();
  for (std::size_t row = 0; row < rows_.size(); row++) places_[rows_[row].set] = static_cast<int>(row);
}

void WalkProgram::drop_walks(double reduced_cost) {
  const std::size_t most = kColumns.walks + kColumns.walks_of_node * instance_.costs.nodes();
  if (routes_.size() <= most) return;
  const double* const costs = program_.dualColumnSolution();
  std::vector<int> dropped;
  std::vector<Route> left;
  for (std::size_t k = 0; k < routes_.size(); k++) {
    const int column = static_cast<int>(k);
    if (routes_[k].size() > 1 && program_.getColumnStatus(column) != ClpSimplex::basic &&
        costs[column] > reduced_cost) {
      dropped.push_back(column);
      known_.erase(routes_[k]);
    } else {
      left.push_back(std::move(routes_[k]));
    }
  }
  routes_ = std::move(left);
  if (!dropped.empty()) program_.deleteColumns(static_cast<int>(dropped.size()), dropped.data());
}

std::vector<NodeSet> WalkProgram::sets() const {
  std::vector<NodeSet> sets;
  sets.reserve(rows_.size());
  for (const Row& row : rows_) sets.push_back(row.set);
  return sets;
}
}  // namespace certify::routes
