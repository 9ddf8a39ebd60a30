// The shortest tour of a few nodes, by all orders.
#pragma once
#include <algorithm>
#include <numeric>

#include "graphs/tour.h"

namespace certify {
// Of the shortest ones the first order. `length_of` returns the length of a tour.
template <class LengthOf>
Tour shortest_by_orders(int nodes, const LengthOf& length_of) {
  Tour order(nodes);
  std::iota(order.begin(), order.end(), 0);
  Tour best = order;
  auto least = length_of(order);
  while (std::next_permutation(order.begin() + 1, order.end())) {
    const auto length = length_of(order);
    if (length >= least) continue;
    best = order;
    least = length;
  }
  return best;
}
}  // namespace certify
