// What pairs of nodes weigh more than cost(i, j) + p(i) + p(j): of sets of nodes, a number for each set that
// has both, and numbers of single pairs. By these a 1-tree takes the multipliers of cuts and decided edges.
// Source: M. Held, R. Karp, The traveling-salesman problem and minimum spanning trees (1970), for potentials;
// E. Balas, N. Christofides, A restricted Lagrangean approach to the TSP (1981), for multipliers of cuts.
#pragma once
#include <utility>
#include <vector>

namespace potentials {
// Numbers are doubles, or whole.
template <class Number>
class Surcharges {
 public:
  explicit Surcharges(int nodes) : sets_of_(nodes), pairs_of_(nodes), loaded_(nodes, 0) {}
  void clear() {
    sets_.clear();
    for (std::vector<int>& sets : sets_of_) sets.clear();
    clear_pairs();
  }
  void clear_pairs() {
    for (auto& pairs : pairs_of_) pairs.clear();
  }
  // The set has to outlive this.
  void add(const std::vector<int>& set, Number weight) {
    for (const int node : set) sets_of_[node].push_back(static_cast<int>(sets_.size()));
    sets_.push_back({&set, weight});
  }
  void add_pair(int i, int j, Number weight) {
    pairs_of_[i].emplace_back(j, weight);
    pairs_of_[j].emplace_back(i, weight);
  }
  // The sets of a node, by the order in which they were added.
  const std::vector<int>& sets_of(int node) const { return sets_of_[node]; }

  Number between(int i, int j) const {
    Number sum = 0;
    auto a = sets_of_[i].begin();
    auto b = sets_of_[j].begin();
    while (a != sets_of_[i].end() && b != sets_of_[j].end()) {
      if (*a == *b) {
        sum += sets_[*a].weight;
        ++a;
        ++b;
      } else {
        ++(*a < *b ? a : b);
      }
    }
    for (const auto& [node, weight] : pairs_of_[i]) {
      if (node == j) sum += weight;
    }
    return sum;
  }

  // Those of the pairs of a node, by the other node, until the next call.
  const std::vector<Number>& of(int i) {
    for (const int node : touched_) loaded_[node] = 0;
    touched_.clear();
    for (const int set : sets_of_[i]) {
      for (const int node : *sets_[set].nodes) load(node, sets_[set].weight);
    }
    for (const auto& [node, weight] : pairs_of_[i]) load(node, weight);
    return loaded_;
  }

 private:
  struct Set {
    const std::vector<int>* nodes;
    Number weight;
  };
  void load(int node, Number weight) {
    loaded_[node] += weight;
    touched_.push_back(node);
  }

  std::vector<Set> sets_;
  std::vector<std::vector<int>> sets_of_;  // of each node, in rising order
  std::vector<std::vector<std::pair<int, Number>>> pairs_of_;
  std::vector<Number> loaded_;
  std::vector<int> touched_;
};
}  // namespace potentials
