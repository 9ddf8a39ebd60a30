// By which numbers the leaves of a CVRP differ: a file has those alone.
#pragma once
#include "routes/walk_bound.h"

namespace certify::routes {
// A number that another leaf has otherwise: the potential of a node, or the multiplier of a set.
struct NumberChange {
  Weight size;
  int node;  // 0 for a set
  NodeSet set;
  Weight number;  // of the other leaf
};

// The least one first.
std::vector<NumberChange> changes_between(const LeafNumbers& own, const LeafNumbers& other);
// The numbers after as many changes.
LeafNumbers with_changes(LeafNumbers numbers, const std::vector<NumberChange>& changes, std::size_t count);
}  // namespace certify::routes
