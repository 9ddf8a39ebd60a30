// Sets of customers, what decisions say of their crossings, and the numbers of leaves over them.
#pragma once
#include <map>
#include <optional>

#include "routes/cvrp.h"
#include "tree/certificate.h"

namespace certify::routes {
// 1 of each node that is in the set, and 0 of the others.
std::vector<char> marks_of(const NodeSet& set, int nodes);

// A set is crossed at least and at most as often.
struct Crossings {
  int low, high;
  bool operator==(const Crossings&) const = default;
};

// At most 2 t crossings of a set, or at least 2 t + 2.
struct Limit {
  NodeSet set;
  bool most;
  int t;
};

// What a plan says of a set without decisions: at least the routes that its demand needs, at most all
// customers'.
Crossings free_crossings(const CvrpInstance& instance, const NodeSet& set);
// The crossings that decisions leave to their sets.
std::map<NodeSet, Crossings> limited_crossings(const CvrpInstance& instance,
                                               const std::vector<Limit>& limits);
// Those of any set under such decisions.
Crossings crossings_under(const std::map<NodeSet, Crossings>& limited, const CvrpInstance& instance,
                          const NodeSet& set);
}  // namespace certify::routes
