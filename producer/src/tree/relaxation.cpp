#include "tree/relaxation.h"

#include <algorithm>
#include <cmath>
#include <utility>

#include "running/parameters.h"

namespace certify {
namespace {
constexpr double kTiny = 1e-6;
}  // namespace

Relaxation::Relaxation(const Instance& instance, const CutPool& pool, const Tour& tour)
    : CutProgram(pool, instance.nodes(), (instance.directed ? 2 : 1) * instance.nodes(), kElastic),
      instance_(instance),
      weights_(instance.weights) {
  least_ = weights_(0, 1);
  Weight most = least_;
  for (int i = 0; i < nodes_; i++) {
    for (int j = 0; j < nodes_; j++) {
      if (i == j) continue;
      least_ = std::min(least_, weights_(i, j));
      most = std::max(most, weights_(i, j));
    }
  }
  length_ = static_cast<double>(length_of(weights_, tour));
  const double above = length_ - static_cast<double>(least_) * nodes_;
  average_ = above / nodes_;
  unit_ = std::max(1.0, average_ / 1000);
  offset_ = static_cast<double>(least_) * nodes_;
  least_penalty_ = (20 * above + 4 * static_cast<double>(most - least_) + 1) / unit_;
  present_.assign(static_cast<std::size_t>(nodes_) * nodes_, 0);
  begin();
}

void Relaxation::reset() {
  std::fill(present_.begin(), present_.end(), 0);
  begin();
}

void Relaxation::set_penalty(double penalty) {
  penalty_ = penalty;
  for (int k = 0; k < kElastic; k++) program_.setObjectiveCoefficient(k, penalty);
}

// The rows of degrees, and the elastic columns: one for all cuts, and two for all degrees.
void Relaxation::begin() {
  clear();
  program_.resize(0, kElastic);
  for (int k = 0; k < kElastic; k++) program_.setColumnBounds(k, 0, COIN_DBL_MAX);
  set_penalty(least_penalty_);
  const std::vector<double> degree(degrees_, instance_.directed ? 1 : 2);
  Entries entries;
  for (int row = 0; row < degrees_; row++) {
    entries.places.insert(entries.places.end(), {1, 2});
    entries.elements.insert(entries.elements.end(), {1, -1});
    entries.end();
  }
  program_.addRows(degrees_, degree.data(), degree.data(), entries.starts.data(), entries.places.data(),
                   entries.elements.data());
}

// For each node the rows and sets that it is in, as pairs of row and place of the set.
std::vector<std::vector<Pair>> Relaxation::memberships() const {
  std::vector<std::vector<Pair>> sets(nodes_);
  for (std::size_t row = 0; row < cuts_.size(); row++) {
    const Cut& cut = pool_[cuts_[row]];
    for (std::size_t k = 0; k < cut.sets.size(); k++) {
      for (const int v : cut.sets[k]) sets[v].emplace_back(row, k);
    }
  }
  return sets;
}

// The entries of an edge in the rows of cuts: in how many sets of each both of its nodes are.
void Relaxation::list_entries(const std::vector<Pair>& of_one, const std::vector<Pair>& of_other,
                              Entries& entries) const {
  std::vector<Pair> common;
  std::set_intersection(of_one.begin(), of_one.end(), of_other.begin(), of_other.end(),
                        std::back_inserter(common));
  int last = -1;
  for (const auto& [row, set] : common) {
    if (row == last) {
      entries.elements.back() += 1;
      continue;
    }
    entries.places.push_back(degrees_ + row);
    entries.elements.push_back(1);
    last = row;
  }
}

void Relaxation::add_edges(const std::vector<Pair>& edges) {
  const bool any =
      std::any_of(edges.begin(), edges.end(), [&](const Pair& edge) { return column_of(edge) < 0; });
  if (!any) return;
  Entries entries;
  std::vector<double> objective;
  const std::vector<std::vector<Pair>> sets = memberships();
  for (const Pair& edge : edges) {
    const auto [i, j] = instance_.link(edge.first, edge.second);
    char& present = present_[static_cast<std::size_t>(i) * nodes_ + j];
    if (present) continue;
    present = 1;
    index_edge({i, j});
    entries.places.insert(entries.places.end(), {i, entering_row(j)});
    entries.elements.insert(entries.elements.end(), {1, 1});
    list_entries(sets[i], sets[j], entries);
    entries.end();
    objective.push_back(static_cast<double>(weights_(i, j) - least_) / unit_);
  }
  add_columns(entries, objective);
}

// In how many of the cut's sets both nodes of each edge are.
double Relaxation::list_row(int cut, Entries& entries) {
  std::vector<char> mark(nodes_, 0);
  std::vector<int> touched;
  counts_.resize(edges_.size(), 0);
  for (const NodeSet& set : pool_[cut].sets) {
    for (const int v : set) mark[v] = 1;
    for (const int v : set) {
      for (const Place& place : adjacent_[v]) {
        if (place.node < v || !mark[place.node]) continue;
        if (counts_[place.column] == 0) touched.push_back(place.column);
        counts_[place.column] += 1;
      }
    }
    for (const int v : set) mark[v] = 0;
  }
  entries.places.push_back(0);
  entries.elements.push_back(-1);
  for (const int column : touched) {
    entries.places.push_back(column + kElastic);
    entries.elements.push_back(std::exchange(counts_[column], 0));
  }
  return pool_[cut].most_inside;
}

// The column of an edge, or -1.
int Relaxation::column_of(const Pair& pair) const {
  const Pair edge = instance_.link(pair.first, pair.second);
  for (const Place& place : adjacent_[edge.first]) {
    if (edges_[place.column] == edge) return place.column;
  }
  return -1;
}

void Relaxation::set_bounds(const Pair& pair, double low, double high) {
  add_edges({pair});
  program_.setColumnBounds(column_of(pair) + kElastic, low, high);
}

void Relaxation::decide(const Decision& decision) {
  const double value = decision.used ? 1 : 0;
  set_bounds(decision.pair, value, value);
}

void Relaxation::release(const Pair& pair) { set_bounds(pair, 0, 1); }

void Relaxation::purge(int age) {
  drop_slack(age);
  read_duals();
}

void Relaxation::drop_edges() {
  const double* costs = program_.getReducedCost();
  std::vector<char> dropped(edges_.size(), 0);
  for (int column = 0; column < columns(); column++) {
    const int place = column + kElastic;
    const bool free = program_.getColLower()[place] < 0.5 && program_.getColUpper()[place] > 0.5;
    const bool zero = program_.getColumnStatus(place) != ClpSimplex::basic && solution_[column] < 1e-9;
    if (!free || !zero || costs[place] * unit_ <= average_ / 2) continue;
    dropped[column] = 1;
    present_[static_cast<std::size_t>(edges_[column].first) * nodes_ + edges_[column].second] = 0;
  }
  drop_columns(dropped);
}

Basis Relaxation::basis() const {
  Basis basis;
  basis.cuts = cuts_;
  basis.rows.reserve(program_.numberRows());
  basis.elastic.reserve(kElastic);
  for (int row = 0; row < program_.numberRows(); row++) basis.rows.push_back(program_.getRowStatus(row));
  for (int k = 0; k < kElastic; k++) basis.elastic.push_back(program_.getColumnStatus(k));
  for (int column = 0; column < columns(); column++) {
    const ClpSimplex::Status status = program_.getColumnStatus(column + kElastic);
    if (status == ClpSimplex::basic) {
      basis.basic.push_back(edges_[column]);
      basis.weights.columns.push_back(edge_weights_.columns[column + kElastic]);
    } else if (solution_[column] > 0.5) {
      basis.at_one.push_back(edges_[column]);
    }
  }
  basis.weights.rows = edge_weights_.rows;
  basis.edges = edges_;
  basis.penalty = penalty_;
  return basis;
}

void Relaxation::restore(const Basis& basis) {
  set_penalty(basis.penalty);
  add_edges(basis.edges);
  add_edges(basis.basic);
  add_edges(basis.at_one);
  std::vector<char> dropped(cuts_.size(), 1);
  for (const int cut : basis.cuts) {
    if (has(cut)) dropped[row_of_[cut]] = 0;
  }
  drop_rows(dropped);
  add_cuts(basis.cuts);
  if (!program_.statusExists()) program_.createStatus();
  take_columns(basis);
  take_rows(basis);
}

// All other edges are at 0.
void Relaxation::take_columns(const Basis& basis) {
  for (int k = 0; k < kElastic; k++) program_.setColumnStatus(k, basis.elastic[k]);
  for (int column = 0; column < columns(); column++) {
    program_.setColumnStatus(column + kElastic, ClpSimplex::atLowerBound);
  }
  edge_weights_.columns.assign(kElastic + edges_.size(), 0);
  for (std::size_t k = 0; k < basis.basic.size(); k++) {
    const int place = column_of(basis.basic[k]) + kElastic;
    program_.setColumnStatus(place, ClpSimplex::basic);
    edge_weights_.columns[place] = basis.weights.columns[k];
  }
  for (const Pair& edge : basis.at_one) {
    program_.setColumnStatus(column_of(edge) + kElastic, ClpSimplex::atUpperBound);
  }
}

void Relaxation::take_rows(const Basis& basis) {
  edge_weights_.rows.assign(basis.weights.rows.begin(), basis.weights.rows.begin() + degrees_);
  edge_weights_.rows.resize(basis.rows.size(), 0);
  for (int row = 0; row < degrees_; row++) program_.setRowStatus(row, basis.rows[row]);
  for (std::size_t k = 0; k < basis.cuts.size(); k++) {
    const int row = row_of_[basis.cuts[k]];
    const std::size_t place = static_cast<std::size_t>(degrees_) + k;
    program_.setRowStatus(degrees_ + row, basis.rows[place]);
    edge_weights_.rows[degrees_ + row] = basis.weights.rows[place];
    ages_[row] = 0;
  }
}

void Relaxation::read_duals() {
  const double* const duals = program_.getRowPrice();
  node_duals_.assign(duals, duals + degrees_);
  read_cut_duals();
}

// The two arcs of an ATSP between two nodes are one edge.
void Relaxation::add_support(int node, int to, double value) {
  std::vector<Edge>& edges = support_[node];
  if (instance_.directed) {
    const auto known =
        std::find_if(edges.begin(), edges.end(), [&](const Edge& edge) { return edge.to == to; });
    if (known != edges.end()) {
      known->value += value;
      return;
    }
  }
  edges.push_back({to, value});
}

void Relaxation::read_solution() {
  read_columns();
  support_.assign(nodes_, {});
  for (int column = 0; column < columns(); column++) {
    if (solution_[column] <= 1e-7) continue;
    const auto [i, j] = edges_[column];
    add_support(i, j, solution_[column]);
    add_support(j, i, solution_[column]);
  }
  for (std::vector<Edge>& edges : support_) {
    for (Edge& edge : edges) {
      if (edge.value > 1 - 1e-7 && edge.value < 1 + 1e-5) edge.value = 1;
    }
  }
  note_ages();
}

// A set with a large dual raises the duals of its nodes. Where clusters lie far apart, they sum up to more
// than the penalty: all degrees then fall short a little, and the value is far too low. A value above the
// length of the tour closes the case as it is.
bool Relaxation::raise_penalty() {
  const double* values = program_.getColSolution();
  const bool elastic = std::any_of(values, values + kElastic, [](double value) { return value > kTiny; });
  if (!elastic || value_ > length_ || penalty_ >= kProgram.most_rise * least_penalty_) return false;
  set_penalty(kProgram.rise * penalty_);
  return true;
}

void Relaxation::solve() {
  solve_while([&](bool) { return price() > 0 || raise_penalty(); });
  read_solution();
}

bool Relaxation::is_whole() const {
  return std::all_of(solution_.begin(), solution_.end(),
                     [](double value) { return value < kTiny || std::abs(value - 1) < kTiny; });
}

void Relaxation::take_margin(double margin) {
  std::vector<std::pair<int, double>> used;
  for (int column = 0; column < columns(); column++) {
    if (solution_[column] < 0.5) continue;
    used.emplace_back(column + kElastic, program_.getObjCoefficients()[column + kElastic]);
  }
  for (const auto& [place, cost] : used) program_.setObjectiveCoefficient(place, cost + margin / unit_);
  do {
    program_.primal(0);
  } while (program_.status() == 0 && price() > 0);
  for (const auto& [place, cost] : used) program_.setObjectiveCoefficient(place, cost);
}
}  // namespace certify
