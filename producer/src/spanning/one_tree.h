// Least 1-trees of a sparse graph under cost(i, j) + p(i) + p(j), by J. B. Kruskal's method (1956).
//
// Light edges are sorted by radix. Heavy ones are sorted after those within one component are left out:
// V. Osipov, P. Sanders, J. Singler, The filter-Kruskal minimum spanning tree algorithm (2009).
#pragma once
#include <cstdint>

#include "graphs/components.h"
#include "points/problem.h"

namespace potentials {
class OneTree {
 public:
  explicit OneTree(const Problem& problem);
  // The graph. Fixed edges are in each tree, whether the graph has them or not.
  void set_edges(const std::vector<Edge>& edges);
  // The bound of the numbers p, and how many edges of the tree each node has.
  double weigh(const std::vector<double>& numbers, std::vector<int>& degrees);
  // The edges of the tree that was weighed last, but for the two at the special node.
  const std::vector<std::pair<int, int>>& tree() const { return tree_; }

 private:
  struct Heavy {
    float weight;
    int edge;
    bool operator<(const Heavy& other) const {
      return weight != other.weight ? weight < other.weight : edge < other.edge;
    }
  };

  float weight_of(const Edge& edge) const { return edge.cost + numbers_[edge.a] + numbers_[edge.b]; }
  void set_range();
  bool divide();
  void sort_light();
  void join(int a, int b);
  void join_heavy();
  void learn_range(const std::vector<double>& numbers);
  void close(const std::vector<double>& numbers);
  void add_link(int a, int b);

  const Problem& problem_;
  std::vector<Edge> edges_, special_edges_;
  std::vector<std::uint64_t> light_, spare_;
  std::vector<Heavy> heavy_;
  std::size_t lights_ = 0, heavies_ = 0;  // how many of them there are
  std::vector<float> numbers_, sample_;
  Components components_;
  std::vector<std::pair<int, int>> tree_;
  std::vector<int> degrees_;
  double sum_ = 0;              // of the costs in the tree
  bool known_ = false;          // whether the range is one that the last tree showed
  double low_ = 0, pivot_ = 0;  // keys are linear from one to the other; weights from the pivot on are heavy
};
}  // namespace potentials
