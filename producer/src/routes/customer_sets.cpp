#include "routes/customer_sets.h"

#include <algorithm>

namespace certify::routes {
std::vector<char> marks_of(const NodeSet& set, int nodes) {
  std::vector<char> marks(nodes, 0);
  for (const int v : set) marks[v] = 1;
  return marks;
}

Crossings free_crossings(const CvrpInstance& instance, const NodeSet& set) {
  return {2 * instance.fewest_routes(instance.demand_of(set)), 2 * (instance.nodes() - 1)};
}

std::map<NodeSet, Crossings> limited_crossings(const CvrpInstance& instance,
                                               const std::vector<Limit>& limits) {
  std::map<NodeSet, Crossings> crossings;
  for (const Limit& limit : limits) {
    Crossings& own = crossings.try_emplace(limit.set, free_crossings(instance, limit.set)).first->second;
    if (limit.most) {
      own.high = std::min(own.high, 2 * limit.t);
    } else {
      own.low = std::max(own.low, 2 * limit.t + 2);
    }
  }
  return crossings;
}

Crossings crossings_under(const std::map<NodeSet, Crossings>& limited, const CvrpInstance& instance,
                          const NodeSet& set) {
  const auto found = limited.find(set);
  return found == limited.end() ? free_crossings(instance, set) : found->second;
}
}  // namespace certify::routes
