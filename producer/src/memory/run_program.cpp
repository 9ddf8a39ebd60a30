#include "memory/run_program.h"

#include <algorithm>
#include <cmath>

#include "memory/memory_parameters.h"

namespace certify::routes {
namespace {
constexpr double kTiny = 1e-7;
const double kMost = COIN_DBL_MAX;
}  // namespace

RunProgram::RunProgram(const CvrpInstance& instance, Memory memory)
    : RouteProgram(instance), memory_(std::move(memory)) {
  add_set(instance.customers());
  sets_[0].limited = true;
  row_states_.resize(memory_.rows.size());
  std::vector<Route> alone;
  for (const int v : instance.customers()) alone.push_back({v});
  add_runs(alone);
}

std::vector<CrossedSet>::const_iterator RunProgram::place_of(const NodeSet& set) const {
  return std::find_if(sets_.begin(), sets_.end(), [&](const CrossedSet& own) { return own.set == set; });
}

Crossings RunProgram::crossings_under(const NodeSet& set) const {
  return has_set(set) ? place_of(set)->crossings : free_crossings(instance_, set);
}

void RunProgram::add_set(const NodeSet& set) {
  if (has_set(set)) return;
  sets_.push_back({set, marks_of(set, instance_.nodes()), free_crossings(instance_, set)});
}

void RunProgram::limit(const NodeSet& set, const Crossings& crossings) {
  add_set(set);
  CrossedSet& own = sets_[place_of(set) - sets_.cbegin()];
  own.crossings = crossings;
  own.limited = true;
}

void RunProgram::list_run(const Route& run, Columns& columns) const {
  list_visits(run, columns);
  int row = customers();
  const auto add = [&](int element) {
    if (element != 0) columns.add(row, element);
    row++;
  };
  for (const CrossedSet& set : sets_) add(crossings_of(run, set.inside));
  for (const SubsetRow& own : memory_.rows) add(payments(own, run));
  columns.end(static_cast<double>(length_of(instance_, run)));
}

int RunProgram::add_runs(const std::vector<Route>& runs) {
  Columns columns;
  int added = 0;
  for (const Route& run : runs) {
    if (!known_.insert(run).second) continue;
    routes_.push_back(run);
    added++;
    if (program_.numberRows() > 0) list_run(run, columns);
  }
  add_columns(columns);
  return added;
}

// Each customer, and each set that is limited, has a column that costs more than any route of one customer.
void RunProgram::list_unmet(Columns& columns) const {
  double penalty = 1;
  for (const int v : instance_.customers()) {
    penalty = std::max(penalty, 3.0 * static_cast<double>(std::abs(length_of(instance_, Route{v}))));
  }
  const auto list = [&](int row, double element) {
    columns.add(row, element);
    columns.end(penalty);
  };
  for (int v = 0; v < customers(); v++) list(v, 1);
  for (std::size_t k = 0; k < sets_.size(); k++) {
    if (!sets_[k].limited) continue;
    for (const double element : {1.0, -1.0}) list(customers() + static_cast<int>(k), element);
  }
}

void RunProgram::set_row_bounds() {
  int row = 0;
  for (; row < customers(); row++) program_.setRowBounds(row, 1, 1);
  for (const CrossedSet& set : sets_) program_.setRowBounds(row++, set.crossings.low, set.crossings.high);
  for (const SubsetRow& own : memory_.rows) program_.setRowBounds(row++, -kMost, own.half());
}

void RunProgram::set_basis() {
  if (customers_.empty()) return;
  program_.createStatus();
  int row = 0, column = 0;
  for (const ClpSimplex::Status status : customers_) program_.setRowStatus(row++, status);
  for (const CrossedSet& set : sets_) program_.setRowStatus(row++, set.status);
  row_states_.resize(memory_.rows.size());
  for (const RowState& state : row_states_) program_.setRowStatus(row++, state.status);
  for (const ClpSimplex::Status status : unmet_customers_) program_.setColumnStatus(column++, status);
  for (const CrossedSet& set : sets_) {
    if (!set.limited) continue;
    for (const ClpSimplex::Status status : set.unmet) program_.setColumnStatus(column++, status);
  }
  of_runs_.resize(routes_.size(), ClpSimplex::atLowerBound);
  for (const ClpSimplex::Status status : of_runs_) program_.setColumnStatus(column++, status);
}

void RunProgram::rebuild() {
  program_ = ClpSimplex();
  program_.setLogLevel(0);
  program_.resize(customers() + static_cast<int>(sets_.size() + memory_.rows.size()), 0);
  set_row_bounds();
  Columns columns;
  list_unmet(columns);
  first_ = static_cast<int>(columns.costs.size());
  for (const Route& run : routes_) list_run(run, columns);
  add_columns(columns);
  set_basis();
  program_.dual(0);
  if (program_.status() == 0) return;
  program_.allSlackBasis();
  program_.dual(0);
}

RunDuals RunProgram::duals() const {
  const double* const values = program_.dualRowSolution();
  RunDuals duals;
  duals.potentials = potentials();
  int row = customers();
  for (const CrossedSet& set : sets_) {
    const double value = values[row++];
    if (std::abs(value) > kTiny) duals.multipliers[set.set] = value;
  }
  for (const SubsetRow& own : memory_.rows) {
    const double value = values[row++];
    if (value < -kTiny) duals.rows[own.set] = -value;
  }
  return duals;
}

double RunProgram::back_of(const RunDuals& duals) const {
  double sum = 0;
  for (const double potential : duals.potentials) sum -= 2 * potential;
  for (const CrossedSet& set : sets_) {
    const auto found = duals.multipliers.find(set.set);
    if (found == duals.multipliers.end()) continue;
    sum += found->second * (found->second > 0 ? set.crossings.low : set.crossings.high);
  }
  for (const auto& [set, multiplier] : duals.rows) sum -= multiplier * static_cast<double>(set.size() / 2);
  return sum;
}

std::vector<std::pair<double, int>> RunProgram::used() const {
  const double* const solution = program_.primalColumnSolution();
  std::vector<std::pair<double, int>> used;
  for (std::size_t k = 0; k < routes_.size(); k++) {
    if (solution[static_cast<std::size_t>(first_) + k] > kTiny) {
      used.emplace_back(solution[static_cast<std::size_t>(first_) + k], static_cast<int>(k));
    }
  }
  return used;
}

std::optional<Routes> RunProgram::plan() const {
  Routes routes;
  for (const auto& [part, run] : used()) {
    if (part > kRunDiving.whole && part < 1 - kRunDiving.whole) return std::nullopt;
    if (part > 0.5) routes.push_back(routes_[run]);
  }
  return is_plan(instance_, routes) ? std::optional(routes) : std::nullopt;
}

// The duals stay feasible, so that the dual simplex needs few iterations.
void RunProgram::fix(int run) {
  program_.setColumnLower(first_ + run, 1);
  program_.dual(0);
}

void RunProgram::note_solution() {
  const RunDuals own = duals();
  int row = customers(), column = customers();
  customers_.clear();
  unmet_customers_.clear();
  for (int v = 0; v < customers(); v++) {
    customers_.push_back(program_.getRowStatus(v));
    unmet_customers_.push_back(program_.getColumnStatus(v));
  }
  for (CrossedSet& set : sets_) {
    set.slack_solutions = own.multipliers.contains(set.set) ? 0 : set.slack_solutions + 1;
    set.status = program_.getRowStatus(row++);
    if (!set.limited) continue;
    for (ClpSimplex::Status& status : set.unmet) status = program_.getColumnStatus(column++);
  }
  row_states_.resize(memory_.rows.size());
  for (std::size_t k = 0; k < memory_.rows.size(); k++) {
    RowState& state = row_states_[k];
    state.slack_solutions = own.rows.contains(memory_.rows[k].set) ? 0 : state.slack_solutions + 1;
    state.status = program_.getRowStatus(row++);
  }
  of_runs_.clear();
  for (std::size_t k = 0; k < routes_.size(); k++) of_runs_.push_back(program_.getColumnStatus(column++));
}

void RunProgram::drop_slack(int set_age, int row_age) {
  std::erase_if(sets_, [&](const CrossedSet& set) { return !set.limited && set.slack_solutions > set_age; });
  std::vector<SubsetRow> rows;
  std::vector<RowState> states;
  row_states_.resize(memory_.rows.size());
  for (std::size_t k = 0; k < memory_.rows.size(); k++) {
    if (row_states_[k].slack_solutions > row_age) continue;
    rows.push_back(std::move(memory_.rows[k]));
    states.push_back(row_states_[k]);
  }
  memory_.rows = std::move(rows);
  row_states_ = std::move(states);
}

void RunProgram::drop_runs() {
  const double* const costs = program_.dualColumnSolution() + first_;
  const double far =
      kRuns.far * std::abs(value()) / instance_.fewest_routes(instance_.demand_of(instance_.customers()));
  const bool many = routes_.size() > kRuns.kept;
  std::vector<Route> left;
  std::vector<ClpSimplex::Status> statuses;
  for (std::size_t k = 0; k < routes_.size(); k++) {
    const bool alone = routes_[k].size() == 1;
    if (!alone && ((many && costs[k] >= far) || !is_run(memory_, routes_[k]))) {
      known_.erase(routes_[k]);
      continue;
    }
    left.push_back(std::move(routes_[k]));
    if (k < of_runs_.size()) statuses.push_back(of_runs_[k]);
  }
  routes_ = std::move(left);
  of_runs_ = std::move(statuses);
}

std::array<double, 2> RunProgram::gains(const NodeSet& set, int t, double enough) const {
  std::array<double, 2> gains = gains_by(set, t, kRunBranching.iterations, enough);
  for (double& gain : gains) gain = std::min(enough, gain);
  return gains;
}
}  // namespace certify::routes
