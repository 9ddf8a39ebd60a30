#include "spanning/exact_tree.h"

#include <algorithm>
#include <limits>
#include <utility>

#include "graphs/components.h"
#include "spanning/least_tree.h"

namespace potentials {
namespace {
constexpr double kInfinite = std::numeric_limits<double>::infinity();
constexpr double kLifted = 1e200;  // the number of the special node, so that no search ends there

class Boruvka {
 public:
  Boruvka(const Problem& problem, const std::vector<double>& numbers, std::vector<Edge> some,
          PairSurcharges* surcharges)
      : problem_(problem),
        numbers_(numbers),
        surcharges_(surcharges),
        open_(std::move(some)),
        components_(problem.nodes()),
        labels_(problem.nodes()),
        best_(problem.nodes()),
        floors_(problem.nodes(), -kInfinite) {}

  std::vector<Edge> find() {
    std::vector<double> lifted = numbers_;
    lifted[problem_.special()] = kLifted;
    problem_.searches().set_numbers(lifted);
    for (const auto& [a, b] : problem_.fixed()) {
      if (a != problem_.special() && b != problem_.special()) add(a, b);
    }
    while (static_cast<int>(tree_.size()) < problem_.nodes() - 2) {
      for (int i = 0; i < problem_.nodes(); i++) labels_[i] = components_.root(i);
      problem_.searches().set_labels(labels_);
      begin_with_open();
      for (int i = 0; i < problem_.nodes(); i++) look_from(i);
      for (int i = 0; i < problem_.nodes(); i++) {
        if (best_[i].a >= 0) add(best_[i].a, best_[i].b);
      }
    }
    problem_.searches().set_extra(nullptr);
    return std::move(tree_);
  }

 private:
  struct Join {
    double weight;
    int a, b;
  };

  void add(int a, int b) {
    if (components_.join(a, b)) tree_.push_back(problem_.edge(a, b));
  }

  // The lightest open edge of each component.
  void begin_with_open() {
    std::fill(best_.begin(), best_.end(), Join{kLifted / 2, -1, -1});
    const int special = problem_.special();
    std::erase_if(open_, [&](const Edge& edge) {
      return edge.a == special || edge.b == special || labels_[edge.a] == labels_[edge.b];
    });
    for (const Edge& edge : open_) {
      double weight = problem_.cost(edge.a, edge.b) + numbers_[edge.a] + numbers_[edge.b];
      if (surcharges_ != nullptr) weight += surcharges_->between(edge.a, edge.b);
      for (const int label : {labels_[edge.a], labels_[edge.b]}) {
        if (weight < best_[label].weight) best_[label] = {weight, edge.a, edge.b};
      }
    }
  }

  void look_from(int i) {
    Join& join = best_[labels_[i]];
    if (i == problem_.special() || floors_[i] >= join.weight) return;
    if (surcharges_ != nullptr) problem_.searches().set_extra(&surcharges_->of(i));
    const Near near = problem_.searches().lightest_outside(i, join.weight - numbers_[i]);
    if (near.node >= 0) {
      join = {near.weight + numbers_[i], i, near.node};
      floors_[i] = join.weight;
    } else {
      floors_[i] = std::max(floors_[i], join.weight);
    }
  }

  const Problem& problem_;
  const std::vector<double>& numbers_;
  PairSurcharges* const surcharges_;
  std::vector<Edge> open_, tree_;
  Components components_;
  std::vector<int> labels_;
  std::vector<Join> best_;  // of each component, by its root
  // What each node's lightest edge to another component weighs at least: components only grow.
  std::vector<double> floors_;
};

// Of a matrix.
std::vector<Edge> tree_of_rows(const Problem& problem, const std::vector<double>& numbers) {
  std::vector<int> outside;
  for (int i = 0; i < problem.nodes(); i++) {
    if (i != problem.special()) outside.push_back(i);
  }
  const int start = outside.back();
  outside.pop_back();
  std::vector<Edge> tree;
  const auto row_of = [&](int from) {
    return [&, from, row = problem.matrix()->row(from)](int node) {
      if (problem.is_fixed(from, node)) return -kInfinite;
      return static_cast<double>(row[node]) + numbers[from] + numbers[node];
    };
  };
  grow_least_tree<double>(problem.nodes(), start, std::move(outside), row_of,
                          [&](int from, int to, double) { tree.push_back(problem.edge(from, to)); });
  return tree;
}

// The two edges at the special node: fixed ones first.
void close(const Problem& problem, const std::vector<double>& numbers, PairSurcharges* surcharges,
           std::vector<Edge>& tree) {
  const int special = problem.special();
  const std::size_t whole = static_cast<std::size_t>(problem.nodes());
  for (const auto& [a, b] : problem.fixed()) {
    if (a == special || b == special) tree.push_back(problem.edge(a, b));
  }
  problem.searches().set_numbers(numbers);
  if (surcharges != nullptr) problem.searches().set_extra(&surcharges->of(special));
  std::vector<Near> found;
  problem.searches().lightest(special, 4, found);
  problem.searches().set_extra(nullptr);
  for (std::size_t k = 0; tree.size() < whole; k++) {
    if (!problem.is_fixed(special, found[k].node)) tree.push_back(problem.edge(special, found[k].node));
  }
}
}  // namespace

std::vector<Edge> exact_tree(const Problem& problem, const std::vector<double>& numbers,
                             const std::vector<Edge>& some, PairSurcharges* surcharges) {
  std::vector<Edge> tree = problem.matrix() != nullptr ? tree_of_rows(problem, numbers)
                                                       : Boruvka(problem, numbers, some, surcharges).find();
  close(problem, numbers, surcharges, tree);
  return tree;
}

double bound_of(const Problem& problem, const std::vector<Edge>& one_tree,
                const std::vector<double>& numbers) {
  double sum = 0;
  for (const Edge& edge : one_tree) sum += problem.cost(edge.a, edge.b) + numbers[edge.a] + numbers[edge.b];
  for (const double number : numbers) sum -= 2 * number;
  return sum;
}

certify::Value whole_sum(const Problem& problem, const std::vector<Edge>& edges,
                         const std::vector<certify::Weight>& numbers, certify::Weight scale) {
  certify::Value sum = 0;
  for (const Edge& edge : edges) {
    const certify::Value cost = std::llround(problem.cost(edge.a, edge.b));
    sum += cost * scale + numbers[edge.a] + numbers[edge.b];
  }
  return sum;
}
}  // namespace potentials
