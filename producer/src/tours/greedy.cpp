#include "tours/greedy.h"

#include <algorithm>
#include <array>
#include <tuple>
#include <utility>

#include "graphs/components.h"

namespace potentials {
namespace {
constexpr double kLifted = 1e200;  // the number of a node with two links, so that no search ends there
constexpr int kFew = 16;           // a round that joins less than one of as many ends is crowded

// Paths that grow by links, until all are one.
class Paths {
 public:
  Paths(const Problem& problem, const std::vector<double>& numbers)
      : problem_(problem),
        numbers_(numbers),
        components_(problem.nodes()),
        beside_(problem.nodes(), {-1, -1}) {
    for (const auto& [a, b] : problem.fixed()) join(a, b);
  }

  Tour grow(const Neighbours& neighbours) {
    for (int i = 0; i < problem_.nodes(); i++) {
      for (int k = neighbours.starts[i]; k < neighbours.starts[i + 1]; k++) {
        links_.push_back({neighbours.costs[k], i, neighbours.nodes[k]});
      }
    }
    take_links();
    bool crowded = false;
    while (joined_ < problem_.nodes() - 1) {
      const int before = joined_;
      look_for_links(crowded);
      const int looks = static_cast<int>(links_.size());
      take_links();
      crowded = kFew * (joined_ - before) < looks;
    }
    return walk();
  }

 private:
  struct Link {
    double cost;
    int a, b;
    bool operator<(const Link& other) const {
      return std::tie(cost, a, b) < std::tie(other.cost, other.a, other.b);
    }
  };

  bool is_inner(int i) const { return beside_[i][1] >= 0; }
  void join(int a, int b) {
    if (is_inner(a) || is_inner(b) || !components_.join(a, b)) return;
    beside_[a][beside_[a][0] < 0 ? 0 : 1] = b;
    beside_[b][beside_[b][0] < 0 ? 0 : 1] = a;
    joined_++;
  }
  void take_links() {
    std::sort(links_.begin(), links_.end());
    for (const Link& link : links_) join(link.a, link.b);
    links_.clear();
  }
  // Each end of a path finds the nearest end of another one. Where ties lead most of them to the same few, as
  // among equal points, the next end by its number is as good where it is as near.
  void look_for_links(bool crowded) {
    const std::vector<int> ends = begin_search();
    for (std::size_t k = 0; k < ends.size(); k++) {
      Near near = problem_.searches().lightest_outside(ends[k], kLifted / 2);
      if (near.node < 0) continue;
      if (crowded) prefer_next(ends, k, near);
      links_.push_back({near.weight + numbers_[ends[k]], ends[k], near.node});
    }
  }
  // The ends of paths, which searches find from here on.
  std::vector<int> begin_search() {
    std::vector<int> ends;
    std::vector<double> numbers(numbers_);
    std::vector<int> labels(problem_.nodes());
    for (int i = 0; i < problem_.nodes(); i++) {
      labels[i] = components_.root(i);
      if (is_inner(i)) {
        numbers[i] = kLifted;
      } else {
        ends.push_back(i);
      }
    }
    problem_.searches().set_numbers(numbers);
    problem_.searches().set_labels(labels);
    return ends;
  }
  void prefer_next(const std::vector<int>& ends, std::size_t k, Near& near) {
    const int path = components_.root(ends[k]);
    const auto begin = ends.begin() + static_cast<std::ptrdiff_t>(k) + 1;
    const auto next = std::find_if(begin, ends.end(), [&](int end) { return components_.root(end) != path; });
    if (next == ends.end()) return;
    const double weight = problem_.cost(ends[k], *next) + numbers_[*next];
    if (weight <= near.weight) near = {weight, *next};
  }
  Tour walk() const {
    int start = 0;
    while (is_inner(start)) start++;
    Tour order;
    for (int before = -1, at = start; at >= 0;) {
      order.push_back(at);
      const int other = beside_[at][0] == before ? beside_[at][1] : beside_[at][0];
      before = std::exchange(at, other);
    }
    return order;
  }

  const Problem& problem_;
  const std::vector<double>& numbers_;
  Components components_;
  std::vector<std::array<int, 2>> beside_;
  std::vector<Link> links_;
  int joined_ = 0;
};
}  // namespace

Neighbours neighbours_of(const Problem& problem, const std::vector<double>& numbers, int count,
                         const std::vector<Edge>& more) {
  problem.searches().set_numbers(numbers);
  std::vector<std::vector<int>> others(problem.nodes());
  for (const Edge& edge : more) {
    others[edge.a].push_back(edge.b);
    others[edge.b].push_back(edge.a);
  }
  Neighbours result;
  std::vector<Near> found;
  for (int i = 0; i < problem.nodes(); i++) {
    result.starts.push_back(static_cast<int>(result.nodes.size()));
    problem.searches().lightest(i, count, found);
    for (const int other : others[i]) {
      const auto same = [&](const Near& near) { return near.node == other; };
      if (std::any_of(found.begin(), found.end(), same)) continue;
      found.push_back({problem.cost(i, other) + numbers[other], other});
    }
    std::stable_sort(found.begin(), found.end());
    for (const Near& near : found) {
      result.nodes.push_back(near.node);
      result.costs.push_back(near.weight + numbers[i]);
    }
  }
  result.starts.push_back(static_cast<int>(result.nodes.size()));
  return result;
}

Tour greedy_tour(const Problem& problem, const std::vector<double>& numbers, const Neighbours& neighbours) {
  return Paths(problem, numbers).grow(neighbours);
}
}  // namespace potentials
