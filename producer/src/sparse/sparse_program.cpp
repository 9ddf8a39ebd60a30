#include "sparse/sparse_program.h"

#include <algorithm>
#include <utility>

#include "sparse/sparse_parameters.h"
#include "tree/watch.h"

namespace sparse {
namespace {
constexpr double kTiny = 1e-6;
}  // namespace

SparseProgram::SparseProgram(const Problem& problem, const CutPool& pool, const Tour& tour,
                             const certify::Clock& clock)
    : CutProgram(pool, problem.nodes(), problem.nodes(), 0),
      problem_(problem),
      clock_(clock),
      mark_(nodes_, 0) {
  average_ = std::max(1e-3, problem.length(tour) / nodes_);
  unit_ = std::max(1.0, average_ / 1000);
  begin();
  add_edges(certify::edges_of(tour));
  add_edges(problem.fixed());
  kept_.assign(edges_.size(), 1);
  for (const Pair& edge : problem.fixed()) program_.setColumnLower(column_of_.at(key_of(edge)), 1);
}

// The rows of degrees.
void SparseProgram::begin() {
  clear();
  end_at(sparse_times().cuts);
  program_.resize(nodes_, 0);
  for (int row = 0; row < nodes_; row++) program_.setRowBounds(row, 2, 2);
}

void SparseProgram::end_at(double part) {
  certify::Watch watch(clock_, part);
  program_.passInEventHandler(&watch);
}

// For each node the sets of rows that it is in.
std::vector<std::vector<SparseProgram::Member>> SparseProgram::memberships() const {
  std::vector<std::vector<Member>> members(nodes_);
  for (std::size_t row = 0; row < cuts_.size(); row++) {
    const certify::Cut& cut = pool_[cuts_[row]];
    for (std::size_t k = 0; k < cut.sets.size(); k++) {
      for (const int v : cut.sets[k]) {
        members[v].push_back({static_cast<int>(row), static_cast<int>(k), crossing_[row][k] != 0});
      }
    }
  }
  return members;
}

// The entries of an edge in the rows of cuts.
void SparseProgram::list_entries(const std::vector<Member>& of_one, const std::vector<Member>& of_other,
                                 Entries& entries) const {
  std::vector<int>& rows = entries.places;
  std::vector<double>& elements = entries.elements;
  const std::size_t first = rows.size();
  const auto add = [&](const Member& member, bool both) {
    if (member.crossing == both) return;
    const double element = both ? 1 : -0.5;
    if (rows.size() > first && rows.back() == nodes_ + member.row) {
      elements.back() += element;
      if (elements.back() != 0) return;
      rows.pop_back();
      elements.pop_back();
      return;
    }
    rows.push_back(nodes_ + member.row);
    elements.push_back(element);
  };
  auto a = of_one.begin();
  auto b = of_other.begin();
  while (a != of_one.end() || b != of_other.end()) {
    if (b == of_other.end() || (a != of_one.end() && *a < *b)) {
      add(*a++, false);
    } else if (a == of_one.end() || *b < *a) {
      add(*b++, false);
    } else {
      add(*a, true);
      ++a;
      ++b;
    }
  }
}

void SparseProgram::add_edges(const std::vector<Pair>& edges) {
  Entries entries;
  std::vector<double> objective;
  const std::vector<std::vector<Member>> members = memberships();
  for (const Pair& each : edges) {
    const Pair edge = sorted(each);
    if (!column_of_.emplace(key_of(edge), columns()).second) continue;
    const auto [i, j] = edge;
    index_edge(edge);
    entries.places.insert(entries.places.end(), {i, j});
    entries.elements.insert(entries.elements.end(), {1, 1});
    list_entries(members[i], members[j], entries);
    entries.end();
    objective.push_back(problem_.cost(i, j) / unit_);
  }
  if (objective.empty()) return;
  kept_.resize(edges_.size(), 0);
  add_columns(entries, objective);
}

void SparseProgram::add_candidates(const std::vector<Pair>& edges) {
  for (const Pair& edge : edges) candidates_.push_back(sorted(edge));
  std::sort(candidates_.begin(), candidates_.end());
  candidates_.erase(std::unique(candidates_.begin(), candidates_.end()), candidates_.end());
}

// Counts the edges inside a set, or takes half of those that cross it away, whatever are fewer. Whether it
// was those that cross it.
bool SparseProgram::count_edges(const NodeSet& set, std::vector<int>& touched) {
  inside_.clear();
  across_.clear();
  for (const int v : set) mark_[v] = 1;
  for (const int v : set) {
    for (const Place& place : adjacent_[v]) {
      const bool within = mark_[place.node] != 0;
      if (!within) across_.push_back(place.column);
      if (within && place.node > v) inside_.push_back(place.column);
    }
  }
  for (const int v : set) mark_[v] = 0;
  const bool crosses = across_.size() < inside_.size();
  for (const int column : crosses ? across_ : inside_) {
    if (counts_[column] == 0) touched.push_back(column);
    counts_[column] += crosses ? -0.5 : 1;
  }
  return crosses;
}

// The edges of a cut's row. Notes whether each set counts those that cross it.
double SparseProgram::list_row(int cut, Entries& entries) {
  has_new_cuts_ = true;
  counts_.resize(edges_.size(), 0);
  std::vector<char>& crossing = crossing_.emplace_back();
  std::vector<int> touched;
  double most = pool_[cut].most_inside;
  for (const NodeSet& set : pool_[cut].sets) {
    crossing.push_back(count_edges(set, touched) ? 1 : 0);
    if (crossing.back() != 0) most -= static_cast<double>(set.size());
  }
  for (const int column : touched) {
    const double count = std::exchange(counts_[column], 0);
    if (count == 0) continue;
    entries.places.push_back(column);
    entries.elements.push_back(count);
  }
  return most;
}

void SparseProgram::drop_rows(const std::vector<char>& dropped) {
  std::size_t row = 0;
  std::erase_if(crossing_, [&](const std::vector<char>&) { return dropped[row++] != 0; });
  CutProgram::drop_rows(dropped);
}

void SparseProgram::keep_combs(const std::vector<std::size_t>& rows) {
  std::vector<char> dropped(cuts_.size(), 0);
  for (std::size_t row = 0; row < cuts_.size(); row++) {
    dropped[row] = pool_[cuts_[row]].kind == certify::CutKind::kComb ? 1 : 0;
  }
  for (const std::size_t row : rows) dropped[row] = 0;
  leave_basis(dropped);
  drop_rows(dropped);
}

// For each row that is tight and goes, a column with an entry in it leaves the basis, which then has as many
// variables as there are rows. The dual simplex can begin with it, since each variable has two bounds. Its
// iterations are few where the duals of the rows are small.
void SparseProgram::leave_basis(const std::vector<char>& dropped) {
  std::vector<char> tight(dropped.size(), 0);
  for (std::size_t row = 0; row < dropped.size(); row++) {
    const int place = nodes_ + static_cast<int>(row);
    tight[row] = dropped[row] != 0 && program_.getRowStatus(place) != ClpSimplex::basic ? 1 : 0;
  }
  const CoinPackedMatrix& matrix = *program_.matrix();
  for (int column = 0; column < columns(); column++) {
    if (program_.getColumnStatus(column) != ClpSimplex::basic) continue;
    const int* const first = matrix.getIndices() + matrix.getVectorStarts()[column];
    const int* const end = first + matrix.getVectorLengths()[column];
    const int* const place =
        std::find_if(first, end, [&](int row) { return row >= nodes_ && tight[row - nodes_] != 0; });
    if (place == end) continue;
    tight[*place - nodes_] = 0;
    const bool high = program_.getColSolution()[column] > 0.5;
    program_.setColumnStatus(column, high ? ClpSimplex::atUpperBound : ClpSimplex::atLowerBound);
  }
}

void SparseProgram::drop_edges() {
  const double* costs = program_.getReducedCost();
  std::vector<char> dropped(edges_.size(), 0), kept;
  std::vector<Pair> edges;
  for (int column = 0; column < columns(); column++) {
    const bool zero = program_.getColumnStatus(column) != ClpSimplex::basic && solution_[column] < 1e-9;
    if (zero && kept_[column] == 0 && costs[column] * unit_ > kSparse.part_of_edge * average_) {
      dropped[column] = 1;
      edges.push_back(edges_[column]);
    } else {
      kept.push_back(kept_[column]);
    }
  }
  if (edges.empty()) return;
  drop_columns(dropped);
  add_candidates(edges);
  kept_ = std::move(kept);
  column_of_.clear();
  for (int column = 0; column < columns(); column++) column_of_[key_of(edges_[column])] = column;
}

// A set that counts the edges across with a dual y is one that counts those inside, where the duals of its
// nodes are y/2 higher.
void SparseProgram::read_duals() {
  const double* const duals = program_.getRowPrice();
  node_duals_.assign(duals, duals + nodes_);
  read_cut_duals();
  for (std::size_t row = 0; row < cuts_.size(); row++) {
    if (cut_duals_[row] == 0) continue;
    const certify::Cut& cut = pool_[cuts_[row]];
    for (std::size_t k = 0; k < cut.sets.size(); k++) {
      if (crossing_[row][k] == 0) continue;
      for (const int v : cut.sets[k]) node_duals_[v] += cut_duals_[row] / 2;
    }
  }
}

double SparseProgram::reduced_cost(const Pair& edge, const std::vector<std::vector<Member>>& members) const {
  const auto [i, j] = edge;
  double cost = problem_.cost(i, j) / unit_ - node_duals_[i] - node_duals_[j];
  if (cost > -kTiny) return cost;
  auto a = members[i].begin();
  auto b = members[j].begin();
  while (a != members[i].end() && b != members[j].end()) {
    if (*a < *b) {
      ++a;
    } else if (*b < *a) {
      ++b;
    } else {
      cost += cut_duals_[a->row];
      ++a;
      ++b;
    }
  }
  return cost;
}

// How many candidates joined.
int SparseProgram::price() {
  const std::vector<std::vector<Member>> members = memberships();
  std::vector<std::pair<double, Pair>> missing;
  for (const Pair& edge : candidates_) {
    if (column_of_.contains(key_of(edge))) continue;
    const double cost = reduced_cost(edge, members);
    if (cost < -kTiny) missing.emplace_back(cost, edge);
  }
  std::sort(missing.begin(), missing.end());
  missing.resize(std::min(missing.size(), static_cast<std::size_t>(nodes_)));
  std::vector<Pair> edges;
  edges.reserve(missing.size());
  for (const auto& [cost, edge] : missing) edges.push_back(edge);
  add_edges(edges);
  return static_cast<int>(edges.size());
}

void SparseProgram::read_solution() {
  read_columns();
  support_.assign(nodes_, {});
  for (int column = 0; column < columns(); column++) {
    double value = solution_[column];
    if (value <= 1e-7) continue;
    if (value > 1 - 1e-7) value = 1;
    const auto [i, j] = edges_[column];
    support_[i].push_back({j, value});
    support_[j].push_back({i, value});
  }
  note_ages();
  has_new_cuts_ = false;
}

bool SparseProgram::solve(int few) {
  bool whole = false;
  solve_while([&](bool is_best) {
    whole = is_best;
    read_duals();
    return whole && price() > few;
  });
  if (whole) read_solution();
  return whole;
}
}  // namespace sparse
