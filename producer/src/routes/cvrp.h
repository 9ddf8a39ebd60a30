// Instances of TYPE CVRP, and plans of routes.
//
// Nodes have other numbers here than in the file: node 0 is the depot, and the customers follow in their
// order.
#pragma once
#include <string>
#include <vector>

#include "graphs/tour.h"
#include "reading/canonical.h"
#include "running/command_line.h"

namespace certify::routes {
using Route = std::vector<int>;     // customers in their order, without the depot
using Routes = std::vector<Route>;  // a plan has each customer once

struct CvrpInstance {
  Matrix costs;
  std::vector<Weight> demands;  // the depot's is 0
  Weight capacity = 1;
  std::vector<int> file_nodes;  // the number of each node in the file
  bool symmetric = true;

  int nodes() const { return costs.nodes(); }
  Weight demand_of(const NodeSet& customers) const;
  // As many routes at least serve customers of this demand.
  int fewest_routes(Weight demand) const;
  NodeSet customers() const;
};

// Throws Refusal where the file isn't of TYPE CVRP, or no plan serves it.
CvrpInstance read_cvrp(const std::string& tsp, const std::string& path, const Canonical& file);
Weight length_of(const CvrpInstance& instance, const Route& route);
Weight length_of(const CvrpInstance& instance, const Routes& routes);
// Whether each customer is in one route, and no route is empty or carries more than the capacity.
bool is_plan(const CvrpInstance& instance, const Routes& routes);
// The routes that are named, in any form that `tsp solution` reads. Throws Refusal where they are no plan of
// the instance.
Routes read_routes(const std::string& tsp, const CommonOptions& files, const CvrpInstance& instance);
void write_routes(const std::string& path, const CvrpInstance& instance, const Routes& routes);
}  // namespace certify::routes
