#include "spanning/one_tree.h"

#include <algorithm>
#include <limits>
#include <stdexcept>
#include <utility>

namespace potentials {
namespace {
// A key has 30 bits of the weight, then twice 17 of the nodes.
constexpr int kNodeBits = 17, kKeyBits = 30, kDigitBits = 10, kDigits = 3;
constexpr std::uint64_t kNodeMask = (1U << kNodeBits) - 1;
constexpr std::size_t kValues = 1U << kDigitBits;
constexpr double kPartOfLight = 0.99;                        // of the edges of a tree
constexpr std::size_t kSampled = 16;                         // one edge of so many
constexpr std::ptrdiff_t kPartsOfHeavy = 8, kFewHeavy = 64;  // edges that are sorted at once
constexpr double kInfinite = std::numeric_limits<double>::infinity();
}  // namespace

OneTree::OneTree(const Problem& problem)
    : problem_(problem), numbers_(problem.nodes()), components_(problem.nodes()) {}

void OneTree::set_edges(const std::vector<Edge>& edges) {
  edges_.clear();
  special_edges_.clear();
  for (const Edge& edge : edges) {
    const bool special = edge.a == problem_.special() || edge.b == problem_.special();
    (special ? special_edges_ : edges_).push_back(edge);
  }
  known_ = false;
  light_.resize(edges_.size());
  spare_.resize(edges_.size());
  heavy_.resize(edges_.size());
}

// The range of all weights, where no tree showed a better one.
void OneTree::set_range() {
  if (known_) return;
  low_ = kInfinite;
  pivot_ = -kInfinite;
  for (const Edge& edge : edges_) {
    const double weight = weight_of(edge);
    low_ = std::min(low_, weight);
    pivot_ = std::max(pivot_, weight);
  }
  pivot_ += std::max(1.0, 1e-3 * std::abs(pivot_));
}

// False where an edge is lighter than the range, so that its key is wrong.
bool OneTree::divide() {
  const auto factor = static_cast<float>(((1U << kKeyBits) - 256) / (pivot_ - low_));
  const auto limit = static_cast<float>(pivot_);
  const auto base = static_cast<float>(low_);
  lights_ = heavies_ = 0;
  float least = limit;
  for (std::size_t k = 0; k < edges_.size(); k++) {
    const Edge& edge = edges_[k];
    const float weight = weight_of(edge);
    least = std::min(least, weight);
    if (weight < limit) {
      const auto key = static_cast<std::uint64_t>(std::max((weight - base) * factor, 0.0F));
      light_[lights_++] = key << (2 * kNodeBits) | static_cast<std::uint64_t>(edge.a) << kNodeBits |
                          static_cast<std::uint64_t>(edge.b);
    } else {
      heavy_[heavies_++] = {weight, static_cast<int>(k)};
    }
  }
  return least >= base;
}

void OneTree::sort_light() {
  std::uint32_t counts[kDigits][kValues] = {};
  const auto digit = [](std::uint64_t key, int d) {
    return key >> (2 * kNodeBits + d * kDigitBits) & (kValues - 1);
  };
  for (std::size_t k = 0; k < lights_; k++) {
    for (int d = 0; d < kDigits; d++) ++counts[d][digit(light_[k], d)];
  }
  for (int d = 0; d < kDigits; d++) {
    std::uint32_t sum = 0;
    for (std::uint32_t& count : counts[d]) sum += std::exchange(count, sum);
    for (std::size_t k = 0; k < lights_; k++) spare_[counts[d][digit(light_[k], d)]++] = light_[k];
    light_.swap(spare_);
  }
}

void OneTree::add_link(int a, int b) {
  ++degrees_[a];
  ++degrees_[b];
  sum_ += problem_.cost(a, b);
}

void OneTree::join(int a, int b) {
  if (components_.join(a, b)) tree_.emplace_back(a, b);
}

// The lightest part is sorted and joined first. After it most of the others are within one component.
void OneTree::join_heavy() {
  const auto within = [&](const Heavy& heavy) {
    const Edge& edge = edges_[heavy.edge];
    return components_.root(edge.a) == components_.root(edge.b);
  };
  const std::size_t whole = problem_.nodes() - 2;
  auto first = heavy_.begin();
  auto end = first + static_cast<std::ptrdiff_t>(heavies_);
  while (first != end && tree_.size() < whole) {
    end = std::remove_if(first, end, within);
    const auto part = first + std::max((end - first) / kPartsOfHeavy, std::min(end - first, kFewHeavy));
    std::nth_element(first, part, end);
    std::sort(first, part);
    for (; first != part; ++first) join(edges_[first->edge].a, edges_[first->edge].b);
  }
}

// The range for the next call: nearly all edges of this tree are light in it.
void OneTree::learn_range(const std::vector<double>& numbers) {
  double least = kInfinite;
  sample_.clear();
  for (std::size_t k = 0; k < tree_.size(); k++) {
    const auto& [a, b] = tree_[k];
    const double weight = problem_.cost(a, b) - problem_.base() + numbers[a] + numbers[b];
    least = std::min(least, weight);
    if (k % kSampled == 0) sample_.push_back(static_cast<float>(weight));
  }
  const auto at = sample_.begin() + static_cast<std::ptrdiff_t>(kPartOfLight * sample_.size());
  std::nth_element(sample_.begin(), at, sample_.end());
  pivot_ = *at;
  low_ = least - 0.05 * std::max(std::abs(pivot_), std::abs(least));
  known_ = pivot_ > low_;
}

// The two edges at the special node: fixed ones first.
void OneTree::close(const std::vector<double>& numbers) {
  const int special = problem_.special();
  std::vector<std::pair<double, int>> ways;
  for (const Edge& edge : special_edges_) {
    const int other = edge.a == special ? edge.b : edge.a;
    if (!problem_.is_fixed(special, other)) {
      ways.emplace_back(problem_.cost(special, other) + numbers[other], other);
    }
  }
  for (const auto& [a, b] : problem_.fixed()) {
    if (a == special || b == special) ways.emplace_back(-kInfinite, a == special ? b : a);
  }
  if (ways.size() < 2) throw std::logic_error("too few edges at the special node");
  std::partial_sort(ways.begin(), ways.begin() + 2, ways.end());
  for (int k = 0; k < 2; k++) add_link(special, ways[k].second);
}

double OneTree::weigh(const std::vector<double>& numbers, std::vector<int>& degrees) {
  std::copy(numbers.begin(), numbers.end(), numbers_.begin());
  components_.reset();
  tree_.clear();
  degrees_.assign(problem_.nodes(), 0);
  sum_ = 0;
  for (const auto& [a, b] : problem_.fixed()) {
    if (a != problem_.special() && b != problem_.special()) join(a, b);
  }
  set_range();
  if (!divide()) {
    known_ = false;
    set_range();
    divide();
  }
  sort_light();
  const std::size_t whole = problem_.nodes() - 2;
  for (std::size_t k = 0; k < lights_ && tree_.size() < whole; k++) {
    join(static_cast<int>(light_[k] >> kNodeBits & kNodeMask), static_cast<int>(light_[k] & kNodeMask));
  }
  if (tree_.size() < whole) join_heavy();
  if (tree_.size() < whole) throw std::logic_error("the candidate graph isn't connected");
  for (const auto& [a, b] : tree_) add_link(a, b);
  close(numbers);
  if (whole > 0) learn_range(numbers);
  for (int i = 0; i < problem_.nodes(); i++) sum_ += numbers[i] * (degrees_[i] - 2);
  degrees = degrees_;
  return sum_;
}
}  // namespace potentials
