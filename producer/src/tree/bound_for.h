// The bound for an instance of either kind.
#pragma once
#include <memory>

#include "tree/exact_bound.h"

namespace certify {
std::unique_ptr<ExactBound> bound_for(const Instance& instance, const CutPool& pool, Weight scale);
}  // namespace certify
