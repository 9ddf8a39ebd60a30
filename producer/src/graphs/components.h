// Components of a graph that grows by edges: R. E. Tarjan, Efficiency of a good but not linear set union
// algorithm (1975), with paths halved, and the least node of a component as its root.
#pragma once
#include <numeric>
#include <vector>

namespace potentials {
class Components {
 public:
  explicit Components(int nodes) : parents_(nodes) { reset(); }
  void reset() { std::iota(parents_.begin(), parents_.end(), 0); }
  int root(int i) {
    while (parents_[i] != i) i = parents_[i] = parents_[parents_[i]];
    return i;
  }
  // False where both are in one component already.
  bool join(int a, int b) {
    a = root(a);
    b = root(b);
    if (a == b) return false;
    parents_[a < b ? b : a] = a < b ? a : b;
    return true;
  }

 private:
  std::vector<int> parents_;
};
}  // namespace potentials
