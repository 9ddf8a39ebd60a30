#include "tree/cut_program.h"

#include <algorithm>

namespace certify {
namespace {
// Drops the elements with a mark of each list, where the marks are those from a place on.
template <typename... T>
void drop_marked(const std::vector<char>& dropped, int first, std::vector<T>&... lists) {
  const auto drop = [&](auto& list) {
    std::size_t kept = static_cast<std::size_t>(first);
    for (std::size_t k = 0; k < dropped.size(); k++) {
      if (dropped[k] == 0) list[kept++] = list[first + k];
    }
    list.resize(kept);
  };
  (drop(lists), ...);
}

std::vector<int> marked(const std::vector<char>& dropped, int first) {
  std::vector<int> places;
  for (std::size_t k = 0; k < dropped.size(); k++) {
    if (dropped[k] != 0) places.push_back(first + static_cast<int>(k));
  }
  return places;
}
}  // namespace

void CutProgram::clear() {
  program_ = ClpSimplex();
  edge_weights_ = {};
  edges_.clear();
  for (std::vector<Place>& adjacent : adjacent_) adjacent.clear();
  cuts_.clear();
  ages_.clear();
  row_of_.clear();
  cut_duals_.clear();
  program_.setLogLevel(0);
  program_.scaling(0);
  SteepestEdge rule(edge_weights_);
  program_.setDualRowPivotAlgorithm(rule);
  edge_weights_.columns.assign(elastic_, 0);
  edge_weights_.rows.assign(degrees_, 0);
}

void CutProgram::name_column(const Pair& edge, int column) {
  adjacent_[edge.first].push_back({edge.second, column});
  adjacent_[edge.second].push_back({edge.first, column});
}

void CutProgram::index_edge(const Pair& edge) {
  name_column(edge, columns());
  edges_.push_back(edge);
  edge_weights_.columns.push_back(0);
}

void CutProgram::add_columns(const Entries& entries, const std::vector<double>& objective) {
  const std::vector<double> low(objective.size(), 0), high(objective.size(), 1);
  program_.addColumns(static_cast<int>(objective.size()), low.data(), high.data(), objective.data(),
                      entries.starts.data(), entries.places.data(), entries.elements.data());
}

void CutProgram::add_cuts(const std::vector<int>& cuts) {
  Entries entries;
  std::vector<double> low, high;
  for (const int cut : cuts) {
    if (has(cut)) continue;
    high.push_back(list_row(cut, entries));
    low.push_back(-COIN_DBL_MAX);
    entries.end();
    row_of_[cut] = static_cast<int>(cuts_.size());
    cuts_.push_back(cut);
    ages_.push_back(0);
    cut_duals_.push_back(0);
    edge_weights_.rows.push_back(0);
  }
  if (low.empty()) return;
  program_.addRows(entries.count(), low.data(), high.data(), entries.starts.data(), entries.places.data(),
                   entries.elements.data());
}

void CutProgram::drop_slack(int age) {
  std::vector<char> dropped(cuts_.size(), 0);
  for (std::size_t row = 0; row < cuts_.size(); row++) {
    const int place = degrees_ + static_cast<int>(row);
    dropped[row] = ages_[row] > age && program_.getRowStatus(place) == ClpSimplex::basic ? 1 : 0;
  }
  drop_rows(dropped);
}

void CutProgram::drop_rows(const std::vector<char>& dropped) {
  const std::vector<int> places = marked(dropped, degrees_);
  if (places.empty()) return;
  program_.deleteRows(static_cast<int>(places.size()), places.data());
  drop_marked(dropped, 0, cuts_, ages_, cut_duals_);
  drop_marked(dropped, degrees_, edge_weights_.rows);
  row_of_.clear();
  for (std::size_t row = 0; row < cuts_.size(); row++) row_of_[cuts_[row]] = static_cast<int>(row);
}

void CutProgram::drop_columns(const std::vector<char>& dropped) {
  const std::vector<int> places = marked(dropped, elastic_);
  if (places.empty()) return;
  program_.deleteColumns(static_cast<int>(places.size()), places.data());
  drop_marked(dropped, 0, edges_, solution_);
  drop_marked(dropped, elastic_, edge_weights_.columns);
  for (std::vector<Place>& adjacent : adjacent_) adjacent.clear();
  for (int column = 0; column < columns(); column++) name_column(edges_[column], column);
}

bool CutProgram::optimize() {
  constexpr int kStopped = 5;
  const auto failed = [&] { return program_.status() != 0 && program_.status() != kStopped; };
  program_.dual(0);
  if (failed()) program_.primal(0);
  if (failed()) {
    program_.allSlackBasis();
    program_.dual(0);
  }
  value_ = program_.objectiveValue() * unit_ + offset_;
  return program_.status() == 0;
}

void CutProgram::read_cut_duals() {
  const double* const duals = program_.getRowPrice() + degrees_;
  cut_duals_.resize(cuts_.size());
  for (std::size_t row = 0; row < cuts_.size(); row++) cut_duals_[row] = std::max(0.0, -duals[row]);
}

void CutProgram::read_columns() {
  const double* const values = program_.getColSolution() + elastic_;
  solution_.assign(values, values + columns());
}

void CutProgram::note_ages() {
  for (std::size_t row = 0; row < cuts_.size(); row++)
    ages_[row] = cut_duals_[row] > 1e-7 ? 0 : ages_[row] + 1;
}
}  // namespace certify
