#include "sparse/sparse_leaf.h"

#include <algorithm>
#include <cmath>

#include "sparse/sparse_parameters.h"

namespace sparse {
using certify::Cut;
using certify::CutKind;

// A power of ten, at which rounding loses little. The limits of the format are far away.
SparseLeaf::SparseLeaf(const Problem& problem, const CutPool& pool, double average)
    : problem_(problem), pool_(pool) {
  constexpr Weight kFinest = 1000000;
  while (scale_ < kFinest && static_cast<double>(scale_) * average < kSparse.average_at_scale) scale_ *= 10;
}

std::vector<std::size_t> SparseLeaf::rows_of_file(const SparseProgram& program) const {
  std::vector<std::pair<double, std::size_t>> rows;
  for (std::size_t row = 0; row < program.cuts().size(); row++) {
    const bool set = pool_[program.cuts()[row]].kind == CutKind::kSubtour;
    if (!set && program.cut_dual(row) > 0) rows.emplace_back(-program.cut_dual(row), row);
  }
  std::sort(rows.begin(), rows.end());
  std::vector<std::size_t> chosen;
  std::size_t nodes = 0;
  for (const auto& [dual, row] : rows) {
    for (const NodeSet& set : pool_[program.cuts()[row]].sets) nodes += set.size();
    if (chosen.size() == kSparse.most_families || nodes > kSparse.most_nodes) break;
    chosen.push_back(row);
  }
  std::sort(chosen.begin(), chosen.end());
  return chosen;
}

// Subtours with the special node are those of the other nodes, whose sets a tree keeps by itself: their edges
// are as many less as the degrees inside are. What all potentials would have in common is left out.
void SparseLeaf::turn_inside_out(const SparseProgram& program, std::vector<double>& potentials) const {
  for (std::size_t row = 0; row < program.cuts().size(); row++) {
    const Cut& cut = pool_[program.cuts()[row]];
    if (cut.kind != CutKind::kSubtour || program.cut_dual(row) == 0) continue;
    if (!std::binary_search(cut.sets[0].begin(), cut.sets[0].end(), problem_.special())) continue;
    for (const int v : cut.sets[0]) potentials[v] += program.cut_dual(row);
  }
}

// Whole numbers at the scale. Their median is 0, so that they are short: a number that is added to all of
// them changes no bound.
std::vector<Weight> SparseLeaf::whole(const std::vector<double>& potentials) const {
  const auto scale = static_cast<double>(scale_);
  std::vector<double> sorted = potentials;
  const auto middle = sorted.begin() + problem_.nodes() / 2;
  std::nth_element(sorted.begin(), middle, sorted.end());
  std::vector<Weight> numbers;
  numbers.reserve(potentials.size());
  for (const double potential : potentials) numbers.push_back(std::llround((potential - *middle) * scale));
  return numbers;
}

Numbers SparseLeaf::extract(const SparseProgram& program) const {
  const auto scale = static_cast<double>(scale_);
  Numbers numbers;
  std::vector<double> potentials(problem_.nodes());
  for (int v = 0; v < problem_.nodes(); v++) potentials[v] = -program.node_dual(v);
  for (const std::size_t row : rows_of_file(program)) {
    const Weight multiplier = std::llround(program.cut_dual(row) * scale / 2);
    if (multiplier == 0) continue;
    numbers.multipliers[program.cuts()[row]] = multiplier;
    for (const NodeSet& set : pool_[program.cuts()[row]].sets) {
      for (const int v : set) potentials[v] += static_cast<double>(multiplier) / scale;
    }
  }
  turn_inside_out(program, potentials);
  numbers.potentials = whole(potentials);
  return numbers;
}

Value SparseLeaf::value(const Numbers& numbers, const std::vector<Pair>& likely) {
  const auto scale = static_cast<double>(scale_);
  potentials::PairSurcharges surcharges(problem_.nodes());
  const certify::Weighed weighed = certify::weigh(numbers, pool_, [&](const NodeSet& set, Weight weight) {
    surcharges.add(set, static_cast<double>(weight) / scale);
  });
  std::vector<double> unscaled;
  unscaled.reserve(weighed.own.size());
  for (const Weight number : weighed.own) unscaled.push_back(static_cast<double>(number) / scale);
  std::vector<potentials::Edge> edges;
  edges.reserve(likely.size());
  for (const auto& [i, j] : likely) edges.push_back(problem_.edge(i, j));
  tree_ = potentials::exact_tree(problem_, unscaled, edges, &surcharges);
  Value sum = weighed.back + potentials::whole_sum(problem_, tree_, weighed.own, scale_);
  for (const potentials::Edge& edge : tree_) sum += std::llround(surcharges.between(edge.a, edge.b) * scale);
  return sum;
}

certify::Certificate SparseLeaf::certificate(const Numbers& numbers) const {
  certify::Certificate certificate;
  certificate.nodes = problem_.nodes();
  certificate.scale = scale_;
  const std::vector<int>& original = problem_.original();
  Numbers outward;
  outward.potentials.resize(numbers.potentials.size());
  for (std::size_t v = 0; v < original.size(); v++) outward.potentials[original[v]] = numbers.potentials[v];
  for (const auto& [cut, multiplier] : numbers.multipliers) {
    outward.multipliers[static_cast<int>(certificate.families.size())] = multiplier;
    std::vector<NodeSet>& family = certificate.families.emplace_back(pool_[cut].sets);
    for (NodeSet& set : family) {
      for (int& v : set) v = original[v];
      std::sort(set.begin(), set.end());
    }
  }
  certificate.steps.emplace_back(std::move(outward));
  return certificate;
}
}  // namespace sparse
