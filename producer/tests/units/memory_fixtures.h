// What the tests of runs with a memory share.
#pragma once
#include <cmath>

#include "memory/memory.h"

inline bool is_near(double a, double b) { return std::abs(a - b) < 1e-6; }

// The numbers of a set.
inline certify::NodeSet listed(const certify::routes::Bits& bits) {
  certify::NodeSet list;
  bits.each([&](int k) { list.push_back(k); });
  return list;
}

// The star of tests/second/memory: each route costs 10, and has room for two of the customers 1, 2 and 3, and
// for customer 4 too.
inline certify::routes::CvrpInstance star() {
  certify::routes::CvrpInstance instance{certify::Matrix(5), {0, 5, 5, 5, 2}, 12, {1, 2, 3, 4, 5}, true};
  for (int v = 1; v < 5; v++) instance.costs.set(0, v, 5);
  return instance;
}
