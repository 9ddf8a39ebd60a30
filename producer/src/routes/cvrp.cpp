#include "routes/cvrp.h"

#include <algorithm>
#include <numeric>
#include <sstream>

#include "reading/distances.h"
#include "reading/instance.h"
#include "reading/named_files.h"
#include "running/refusal.h"
#include "running/writing.h"

namespace certify::routes {
namespace {
// The depot first, then the customers in their order, by their places in the file.
std::vector<int> depot_first(int depot, int nodes) {
  std::vector<int> order{depot};
  for (int v = 0; v < nodes; v++) {
    if (v != depot) order.push_back(v);
  }
  return order;
}

std::vector<Weight> demands_of(const Canonical& file) {
  std::vector<Weight> demands(file.nodes(), 0);
  Words words(file.section("DEMAND_SECTION"));
  for (std::size_t k = 0; k < demands.size(); k++) {
    const Weight node = words.whole();
    demands.at(node - 1) = words.whole();
  }
  return demands;
}

// The one depot, from 0 on.
int depot_of(const Canonical& file, const std::string& path) {
  Words words(file.section("DEPOT_SECTION"));
  const Weight depot = words.whole();
  if (depot < 1 || words.whole() != -1) throw Refusal(path + ": there isn't exactly one depot");
  return static_cast<int>(depot) - 1;
}

// What no plan can serve.
void refuse_unserved(const CvrpInstance& instance, const std::string& path) {
  if (instance.demands[0] != 0) throw Refusal(path + ": the depot's demand isn't 0");
  for (const int v : instance.customers()) {
    if (instance.demands[v] > instance.capacity) {
      throw Refusal(path + ": the demand of node " + std::to_string(instance.file_nodes[v]) +
                    " is more than the capacity");
    }
  }
}

Routes routes_of(const Canonical& file, const CvrpInstance& instance) {
  std::vector<int> inward(instance.nodes() + 1, 0);
  for (int v = 0; v < instance.nodes(); v++) inward[instance.file_nodes[v]] = v;
  Routes routes;
  Route route;
  Words words(file.section("TOUR_SECTION"));
  for (std::string_view word; words.next(word);) {
    const Weight node = Words(word).whole();
    if (node > 0) {
      route.push_back(node <= instance.nodes() ? inward[node] : 0);
      continue;
    }
    if (!route.empty()) routes.push_back(std::move(route));
    route.clear();
  }
  return routes;
}
}  // namespace

Weight CvrpInstance::demand_of(const NodeSet& customers) const {
  return std::accumulate(customers.begin(), customers.end(), Weight{0},
                         [&](Weight sum, int v) { return sum + demands[v]; });
}

int CvrpInstance::fewest_routes(Weight demand) const {
  return static_cast<int>(std::max<Weight>(1, (demand + capacity - 1) / capacity));
}

NodeSet CvrpInstance::customers() const {
  NodeSet customers(nodes() - 1);
  std::iota(customers.begin(), customers.end(), 1);
  return customers;
}

CvrpInstance read_cvrp(const std::string& tsp, const std::string& path, const Canonical& file) {
  const int nodes = file.nodes();
  if (nodes < 2) throw Refusal(path + ": there is no customer");
  if (nodes > kMostNodes) {
    throw Refusal(path + ": more than " + std::to_string(kMostNodes) + " nodes aren't taken");
  }
  if (!fixed_pairs(file).empty()) throw Refusal(path + ": no routes use fixed edges");
  const Matrix listed =
      file.value("EDGE_WEIGHT_TYPE") == "EXPLICIT" ? read_matrix(tsp, path, file) : distances_of(file);
  const std::vector<Weight> demands = demands_of(file);
  const std::vector<int> order = depot_first(depot_of(file, path), nodes);
  CvrpInstance instance{Matrix(nodes), {}, 1, {}};
  for (int i = 0; i < nodes; i++) {
    for (int j = 0; j < nodes; j++) instance.costs.set_arc(i, j, listed(order[i], order[j]));
    instance.demands.push_back(demands[order[i]]);
    instance.file_nodes.push_back(order[i] + 1);
  }
  instance.capacity = Words(file.section("CAPACITY")).whole();
  instance.symmetric = is_symmetric(instance.costs);
  refuse_unserved(instance, path);
  return instance;
}

Weight length_of(const CvrpInstance& instance, const Route& route) {
  Weight sum = 0;
  int last = 0;
  for (const int v : route) {
    sum += instance.costs(last, v);
    last = v;
  }
  return sum + instance.costs(last, 0);
}

Weight length_of(const CvrpInstance& instance, const Routes& routes) {
  Weight sum = 0;
  for (const Route& route : routes) sum += length_of(instance, route);
  return sum;
}

bool is_plan(const CvrpInstance& instance, const Routes& routes) {
  NodeSet served;
  for (const Route& route : routes) {
    if (route.empty() || instance.demand_of(route) > instance.capacity) return false;
    served.insert(served.end(), route.begin(), route.end());
  }
  std::sort(served.begin(), served.end());
  return served == instance.customers();
}

Routes read_routes(const std::string& tsp, const CommonOptions& files, const CvrpInstance& instance) {
  Routes routes = routes_of(read_solution(tsp, files), instance);
  if (!is_plan(instance, routes)) throw Refusal(*files.tour + ": these are no routes of the instance");
  return routes;
}

void write_routes(const std::string& path, const CvrpInstance& instance, const Routes& routes) {
  std::ostringstream text;
  text << "TYPE : TOUR\nTOUR_SECTION\n";
  for (const Route& route : routes) {
    for (const int v : route) text << instance.file_nodes[v] << ' ';
    text << "-1\n";
  }
  text << "EOF\n";
  write_text(path, text.str());
}
}  // namespace certify::routes
