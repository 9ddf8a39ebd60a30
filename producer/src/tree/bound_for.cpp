#include "tree/bound_for.h"

#include "tree/row_bound.h"
#include "tree/tree_bound.h"

namespace certify {
std::unique_ptr<ExactBound> bound_for(const Instance& instance, const CutPool& pool, Weight scale) {
  if (instance.directed) return std::make_unique<RowBound>(instance.weights, pool, scale);
  return std::make_unique<TreeBound>(instance.weights, pool, scale);
}
}  // namespace certify
