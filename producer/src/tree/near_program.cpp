#include "tree/near_program.h"

#include <algorithm>
#include <cmath>
#include <iterator>
#include <numeric>
#include <utility>

#include "running/parameters.h"
#include "tree/watch.h"

namespace certify {
namespace {
bool has(const NodeSet& set, int node) { return std::binary_search(set.begin(), set.end(), node); }
}  // namespace

// The rows of edges that aren't at node 0, of those that are, and of the other nodes.
NearProgram::NearProgram(const Problem& problem, const CutPool& pool, ExactBound& bound, const Clock& clock,
                         double part_of_time)
    : weights_(problem.instance.weights),
      pool_(pool),
      bound_(bound),
      clock_(clock),
      part_of_time_(part_of_time),
      penalty_(kLeaves.first_penalty) {
  const auto length = static_cast<double>(length_of(weights_, problem.start.tour));
  unit_ = static_cast<double>(bound_.scale()) * std::max(1.0, length / nodes() / 1000);
  program_.setLogLevel(0);
  program_.scaling(0);
  Watch watch(clock_, part_of_time_);
  program_.passInEventHandler(&watch);
  program_.resize(0, 0);
  std::vector<double> edges(first_row(), 2);
  edges[0] = nodes() - 2;
  const std::vector<CoinBigIndex> starts(first_row() + 1, 0);
  program_.addRows(first_row(), edges.data(), edges.data(), starts.data(), nullptr, nullptr);
  add_edges(problem.edges);
}

// How often an edge crosses the sets of a cut, or whether it is inside a set.
double NearProgram::entry(const Row& row, const Pair& edge) const {
  if (row.cut < 0) return has(row.set, edge.first) && has(row.set, edge.second) ? 1 : 0;
  double crossings = 0;
  for (const NodeSet& set : pool_[row.cut].sets) crossings += has(set, edge.first) != has(set, edge.second);
  return crossings;
}

void NearProgram::add_edges(const std::vector<Pair>& edges) {
  std::vector<CoinBigIndex> starts{0};
  std::vector<int> places;
  std::vector<double> elements;
  int count = 0;
  for (const Pair& each : edges) {
    const Pair edge = std::minmax(each.first, each.second);
    if (!column_of_.emplace(edge, static_cast<int>(columns_.size())).second) continue;
    columns_.push_back({edge, -1});
    places.push_back(edge.first == 0 ? 1 : 0);
    elements.push_back(1);
    for (const int v : {edge.first, edge.second}) {
      if (v == 0) continue;
      places.push_back(1 + v);
      elements.push_back(1);
    }
    for (std::size_t row = 0; row < rows_.size(); row++) {
      const double element = entry(rows_[row], edge);
      if (element == 0) continue;
      places.push_back(first_row() + static_cast<int>(row));
      elements.push_back(element);
    }
    starts.push_back(static_cast<CoinBigIndex>(places.size()));
    count++;
  }
  if (count == 0) return;
  const std::vector<double> low(count, 0), high(count, 1), costs(count, 0);
  program_.addColumns(count, low.data(), high.data(), costs.data(), starts.data(), places.data(),
                      elements.data());
}

// Rows join all at once, since each time costs a copy of the program. Those of cuts have bounds by a penalty.
void NearProgram::add_rows(std::vector<Row> rows) {
  if (rows.empty()) return;
  std::vector<CoinBigIndex> starts{0};
  std::vector<int> places;
  std::vector<double> elements, high;
  for (const Row& row : rows) {
    for (std::size_t column = 0; column < columns_.size(); column++) {
      if (!is_edge(column)) continue;
      const double element = entry(row, columns_[column].edge);
      if (element == 0) continue;
      places.push_back(static_cast<int>(column));
      elements.push_back(element);
    }
    starts.push_back(static_cast<CoinBigIndex>(places.size()));
    high.push_back(static_cast<double>(row.set.size()) - 1);
  }
  const std::vector<double> low(rows.size(), -COIN_DBL_MAX);
  program_.addRows(static_cast<int>(rows.size()), low.data(), high.data(), starts.data(), places.data(),
                   elements.data());
  std::move(rows.begin(), rows.end(), std::back_inserter(rows_));
}

void NearProgram::add_cuts(const Numbers& numbers) {
  std::vector<Row> rows;
  std::vector<int> places;
  for (const auto& [cut, multiplier] : numbers.multipliers) {
    const auto row = static_cast<int>(rows_.size() + rows.size());
    if (!row_of_.emplace(cut, row).second) continue;
    rows.push_back({cut, {}});
    places.push_back(row);
  }
  add_rows(std::move(rows));
  const std::vector<double> elements(places.size(), -1), low(places.size(), 0), costs(places.size(), 0);
  const std::vector<double> high(places.size(), COIN_DBL_MAX);
  std::vector<CoinBigIndex> starts(places.size() + 1);
  std::iota(starts.begin(), starts.end(), 0);
  for (int& place : places) {
    columns_.push_back({{-1, -1}, place});
    place += first_row();
  }
  if (places.empty()) return;
  program_.addColumns(static_cast<int>(places.size()), low.data(), high.data(), costs.data(), starts.data(),
                      places.data(), elements.data());
}

// Whether a row and its surplus, if it has one, leave the basis whole when they are dropped: those of a set
// that no solution needs any more, or of a cut that neither numbers name.
bool NearProgram::is_slack(std::size_t row, int surplus, const NearLeaf& leaf) const {
  const int cut = rows_[row].cut;
  const bool basic = program_.getRowStatus(first_row() + static_cast<int>(row)) == ClpSimplex::basic;
  if (cut < 0) return basic;
  if (leaf.last.multipliers.count(cut) > 0 || leaf.own.multipliers.count(cut) > 0) return false;
  return basic != (program_.getColumnStatus(surplus) == ClpSimplex::basic);
}

void NearProgram::drop_slack_rows(const NearLeaf& leaf) {
  std::vector<int> surplus(rows_.size(), -1), moved(rows_.size(), -1), places, columns;
  for (std::size_t column = 0; column < columns_.size(); column++) {
    if (!is_edge(column)) surplus[columns_[column].surplus_of] = static_cast<int>(column);
  }
  std::vector<Row> kept;
  for (std::size_t row = 0; row < rows_.size(); row++) {
    if (is_slack(row, surplus[row], leaf)) {
      places.push_back(first_row() + static_cast<int>(row));
      if (surplus[row] >= 0) columns.push_back(surplus[row]);
      row_of_.erase(rows_[row].cut);
    } else {
      moved[row] = static_cast<int>(kept.size());
      kept.push_back(std::move(rows_[row]));
    }
  }
  if (places.empty()) return;
  program_.deleteRows(static_cast<int>(places.size()), places.data());
  if (!columns.empty()) program_.deleteColumns(static_cast<int>(columns.size()), columns.data());
  rows_ = std::move(kept);
  for (auto& [cut, row] : row_of_) row = moved[row];
  std::erase_if(columns_,
                [&](const Column& each) { return each.surplus_of >= 0 && moved[each.surplus_of] < 0; });
  for (std::size_t column = 0; column < columns_.size(); column++) {
    if (is_edge(column)) {
      column_of_[columns_[column].edge] = static_cast<int>(column);
    } else {
      columns_[column].surplus_of = moved[columns_[column].surplus_of];
    }
  }
}

// What edges weigh by the last numbers, and surpluses by the multipliers.
void NearProgram::set_costs() {
  potentials::Surcharges<Weight> surcharges(nodes());
  const Weighed weighed =
      weigh(last_, pool_, [&](const NodeSet& set, Weight weight) { surcharges.add(set, weight); });
  for (std::size_t column = 0; column < columns_.size(); column++) {
    const auto& [edge, row] = columns_[column];
    Weight weight = 0;
    if (row >= 0) {
      const auto found = last_.multipliers.find(rows_[row].cut);
      weight = found == last_.multipliers.end() ? 0 : found->second;
    } else {
      const auto [i, j] = edge;
      weight = bound_.scale() * weights_(i, j) + weighed.own[i] + weighed.own[j] + surcharges.between(i, j);
    }
    program_.setObjectiveCoefficient(static_cast<int>(column), static_cast<double>(weight) / unit_);
  }
}

void NearProgram::decide(const std::vector<Decision>& decisions) {
  for (const Pair& edge : decided_) program_.setColumnBounds(column_of_.at(edge), 0, 1);
  decided_.clear();
  for (const Decision& decision : decisions) {
    const Pair edge = std::minmax(decision.pair.first, decision.pair.second);
    add_edges({edge});
    const double value = decision.used ? 1 : 0;
    program_.setColumnBounds(column_of_.at(edge), value, value);
    decided_.push_back(edge);
  }
}

void NearProgram::set_penalty(double penalty) {
  for (int v = 1; v < nodes(); v++) program_.setRowBounds(1 + v, 2 - penalty, 2 + penalty);
  for (const auto& [cut, row] : row_of_) {
    const double crossings = pool_[cut].crossings;
    program_.setRowBounds(first_row() + row, crossings - penalty, crossings + penalty);
  }
}

// By the primal method where edges have joined, since the last solution keeps all rows.
bool NearProgram::solve(bool by_primal) {
  const auto ends = [&](auto method) {
    (program_.*method)(0, 0);
    return program_.status() == 0;
  };
  return (!by_primal && ends(&ClpSimplex::dual)) || (!is_over() && ends(&ClpSimplex::primal));
}

// Of edges, by the last numbers and their changes.
std::vector<double> NearProgram::reduced_costs() const {
  const CoinPackedMatrix& matrix = *program_.matrix();
  const double* duals = program_.getRowPrice();
  const double* costs = program_.getObjCoefficients();
  std::vector<double> reduced(columns_.size());
  for (std::size_t column = 0; column < columns_.size(); column++) {
    double cost = costs[column];
    const CoinBigIndex first = matrix.getVectorStarts()[column];
    for (CoinBigIndex k = first; k < first + matrix.getVectorLengths()[column]; k++) {
      const int row = matrix.getIndices()[k];
      if (row < 2 || (row >= first_row() && rows_[row - first_row()].cut < 0)) continue;
      cost -= duals[row] * matrix.getElements()[k];
    }
    reduced[column] = cost;
  }
  return reduced;
}

Numbers NearProgram::numbers(Weight grid) const {
  const double* duals = program_.getRowPrice();
  const auto change = [&](int row) {
    return static_cast<Weight>(std::llround(duals[row] * unit_ / static_cast<double>(grid))) * grid;
  };
  Numbers numbers = last_;
  for (int v = 1; v < nodes(); v++) numbers.potentials[v] -= change(1 + v);
  for (const auto& [cut, row] : row_of_) {
    const auto found = last_.multipliers.find(cut);
    const Weight before = found == last_.multipliers.end() ? 0 : found->second;
    const Weight multiplier = std::max<Weight>(0, before + change(first_row() + row));
    if (multiplier > 0) {
      numbers.multipliers[cut] = multiplier;
    } else {
      numbers.multipliers.erase(cut);
    }
  }
  return numbers;
}

// Numbers under a penalty that reach the goal. Nothing where they don't.
std::optional<Numbers> NearProgram::reach(double penalty, const NearLeaf& leaf) {
  set_penalty(penalty);
  bool more_edges = false;
  for (int round = 0; round < kLeaves.near_rounds && !is_over(); round++) {
    if (!solve(more_edges)) return std::nullopt;
    more_edges = false;
    if (add_violated_sets() > 0) continue;
    Numbers near = numbers(leaf.grid);
    if (bound_.value(near, leaf.decisions) >= leaf.goal) return near;
    const std::size_t before = columns_.size();
    add_edges(bound_.links());
    if (columns_.size() == before) return std::nullopt;
    set_costs();
    more_edges = true;
  }
  return std::nullopt;
}

// The larger the penalty, the nearer the numbers.
std::optional<Numbers> NearProgram::find(const NearLeaf& leaf) {
  if (is_over()) return std::nullopt;
  drop_slack_rows(leaf);
  last_ = leaf.last;
  decide(leaf.decisions);
  for (const Numbers* numbers : {&leaf.last, &leaf.own}) add_cuts(*numbers);
  set_costs();
  if (!std::exchange(begun_, true)) add_first_sets();
  const double first = penalty_;
  std::optional<Numbers> near = reach(penalty_, leaf);
  double above = kLeaves.most_penalty;  // one that isn't reached, or isn't tried
  while (!near && penalty_ > kLeaves.least_penalty && !is_over()) {
    above = penalty_;
    penalty_ /= kLeaves.penalty_step;
    near = reach(penalty_, leaf);
  }
  if (!near) {
    penalty_ = first;
    return std::nullopt;
  }
  while (penalty_ * kLeaves.least_step < above && !is_over()) {
    const double trial = std::min(penalty_ * kLeaves.penalty_step, std::sqrt(penalty_ * above));
    if (std::optional<Numbers> nearer = reach(trial, leaf)) {
      near = std::move(nearer);
      penalty_ = trial;
    } else {
      above = trial;
    }
  }
  return near;
}
}  // namespace certify
