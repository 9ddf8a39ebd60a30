#include "route_fixtures.h"

#include <algorithm>

using namespace certify;
using namespace certify::routes;

namespace {
// Each plan's routes, as sets of orders.
void add_plans(const CvrpInstance& instance, NodeSet rest, Routes& routes, std::vector<Routes>& plans) {
  if (rest.empty()) {
    plans.push_back(routes);
    return;
  }
  for (unsigned chosen = 1; chosen < 1u << rest.size(); chosen += 2) {  // (with the first one)
    Route route;
    NodeSet others;
    for (std::size_t k = 0; k < rest.size(); k++) (chosen >> k & 1 ? route : others).push_back(rest[k]);
    if (instance.demand_of(route) > instance.capacity) continue;
    do {
      routes.push_back(route);
      add_plans(instance, others, routes, plans);
      routes.pop_back();
    } while (std::next_permutation(route.begin(), route.end()));
  }
}
}  // namespace

CvrpInstance random_instance(int nodes, Weight capacity, Random& random, Weight low) {
  CvrpInstance instance{Matrix(nodes), {0}, capacity, {}, false};
  for (int v = 0; v < nodes; v++) {
    instance.file_nodes.push_back(v + 1);
    if (v > 0) instance.demands.push_back(random.below(6));
    for (int j = 0; j < nodes; j++) {
      if (j != v) instance.costs.set_arc(v, j, low + random.below(40));
    }
  }
  return instance;
}

CvrpInstance rectangle(Weight capacity) {
  CvrpInstance instance{Matrix(4), {0, 4, 4, 4}, capacity, {1, 2, 3, 4}, true};
  const Weight costs[4][4] = {{0, 3, 5, 4}, {3, 0, 4, 5}, {5, 4, 0, 3}, {4, 5, 3, 0}};
  for (int i = 0; i < 4; i++) {
    for (int j = 0; j < 4; j++) instance.costs.set_arc(i, j, costs[i][j]);
  }
  return instance;
}

std::vector<Routes> all_plans(const CvrpInstance& instance) {
  std::vector<Routes> plans;
  Routes routes;
  add_plans(instance, instance.customers(), routes, plans);
  return plans;
}
