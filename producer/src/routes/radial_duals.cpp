#include "routes/radial_duals.h"

#include <algorithm>

namespace certify::routes {
Duals radial_duals(const CvrpInstance& instance) {
  Duals duals{std::vector<double>(instance.nodes(), 0), {}};
  const double vehicles = static_cast<double>(instance.capacity) * unit_of_costs(instance);
  for (const int v : instance.customers()) {
    const double way = static_cast<double>(instance.costs(0, v) + instance.costs(v, 0));
    duals.potentials[v] = -std::max(0.0, way) / 2 * static_cast<double>(instance.demands[v]) / vehicles;
  }
  return duals;
}
}  // namespace certify::routes
