// A least tree over all pairs of nodes.
// Source: R. C. Prim, Shortest connection networks and some generalizations (1957).
#pragma once
#include <limits>
#include <vector>

namespace potentials {
// The tree has the node to start with, and those outside. `row_of(node)` returns the weights of its pairs, as
// a function of the other node, until the next call. `add(from, to, weight)` takes each edge of the tree.
template <class Number, class RowOf, class Add>
void grow_least_tree(int nodes, int start, std::vector<int> outside, const RowOf& row_of, const Add& add) {
  using Limits = std::numeric_limits<Number>;
  // of each node outside the nearest one in the tree, and how near it is
  std::vector<int> ends(nodes, start);
  std::vector<Number> near(nodes, Limits::has_infinity ? Limits::infinity() : Limits::max());
  for (int last = start; !outside.empty();) {
    const auto weight_of = row_of(last);
    std::size_t nearest = 0;
    for (std::size_t k = 0; k < outside.size(); k++) {
      const int node = outside[k];
      const Number weight = weight_of(node);
      if (weight < near[node]) {
        near[node] = weight;
        ends[node] = last;
      }
      if (near[node] < near[outside[nearest]]) nearest = k;
    }
    last = outside[nearest];
    outside[nearest] = outside.back();
    outside.pop_back();
    add(ends[last], last, near[last]);
  }
}
}  // namespace potentials
