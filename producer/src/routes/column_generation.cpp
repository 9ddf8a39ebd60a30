#include "routes/column_generation.h"

#include <algorithm>
#include <cmath>
#include <numeric>

#include "routes/route_parameters.h"

namespace certify::routes {
namespace {
double weight_of(const Route& walk, const Links<double>& links, int nodes) {
  double sum = 0;
  int last = 0;
  for (const int v : walk) {
    sum += links[static_cast<std::size_t>(last) * nodes + v];
    last = v;
  }
  return sum + links[static_cast<std::size_t>(last) * nodes];
}

// How much each customer of a route makes it longer: by its detour, and by its part of the load on the way
// from the depot and back.
std::vector<double> shares_of(const CvrpInstance& instance, const Route& route) {
  const Matrix& costs = instance.costs;
  const auto load = static_cast<double>(std::max<Weight>(1, instance.demand_of(route)));
  std::vector<double> shares;
  for (std::size_t k = 0; k < route.size(); k++) {
    const int v = route[k], before = k > 0 ? route[k - 1] : 0;
    const int behind = k + 1 < route.size() ? route[k + 1] : 0;
    const Weight detour = costs(before, v) + costs(v, behind) - costs(before, behind);
    const double way = static_cast<double>(costs(0, v) + costs(v, 0));
    const double part = static_cast<double>(instance.demands[v]) / load;
    shares.push_back(std::max(0.0, static_cast<double>(detour)) + std::max(0.0, way * part));
  }
  return shares;
}
}  // namespace

ColumnGeneration::ColumnGeneration(const CvrpInstance& instance, const Loads& loads, WalkProgram& program,
                                   const std::vector<Limit>& limits)
    : instance_(instance),
      program_(program),
      table_(loads),
      limited_(limited_crossings(instance, limits)),
      large_(static_cast<double>(loads.cells()) * instance.nodes() > kColumns.small_table),
      bound_(kNoBound) {}

// The multiplier of all customers takes what the least walk weighs. Then the bound is what duals give back.
double ColumnGeneration::bound_of(Duals& duals, double least_walk) const {
  duals.multipliers[instance_.customers()] += least_walk / 2;
  double sum = 0;
  for (const double potential : duals.potentials) sum -= 2 * potential;
  for (const auto& [set, multiplier] : duals.multipliers) {
    const Crossings own = crossings_under(limited_, instance_, set);
    sum += multiplier * (multiplier > 0 ? own.low : own.high);
  }
  return sum;
}

// A part of the best duals, and the rest of these.
Duals ColumnGeneration::mixed(const Duals& duals, double part) const {
  if (part <= 0) return duals;
  Duals mixed = best_;
  for (std::size_t v = 0; v < mixed.potentials.size(); v++) {
    mixed.potentials[v] = part * best_.potentials[v] + (1 - part) * duals.potentials[v];
  }
  for (auto& [set, multiplier] : mixed.multipliers) multiplier *= part;
  for (const auto& [set, multiplier] : duals.multipliers) {
    mixed.multipliers[set] += (1 - part) * multiplier;
  }
  return mixed;
}

// Those of the table that weigh less than 0 under the duals of the program join it. How many.
int ColumnGeneration::add_walks(const Duals& duals) {
  const auto most =
      std::clamp<std::size_t>(instance_.nodes(), kColumns.fewest_at_once, kColumns.most_at_once);
  const Links<double> links = links_under(instance_, duals, 1 / program_.unit());
  std::vector<Route> light;
  for (const Walk<double>& walk : table_.walks(most)) {
    if (weight_of(walk.customers, links, instance_.nodes()) < -1e-7) light.push_back(walk.customers);
  }
  return program_.add_walks(light);
}

// Walks over few links, which says nothing of the bound.
bool ColumnGeneration::price_few(const Duals& duals, const Duals& mixed) {
  table_.least_of_few(links_under(instance_, mixed, 1 / program_.unit()), kColumns.few_links);
  return add_walks(duals) >= kColumns.enough_of_few;
}

// All walks. The mixed duals become the best ones where their bound is better. How many walks joined.
int ColumnGeneration::price(const Duals& duals, Duals mixed) {
  const double least = table_.least(links_under(instance_, mixed, 1 / program_.unit()));
  const int added = add_walks(duals);
  const double bound = bound_of(mixed, least);
  if (bound > bound_) {
    bound_ = bound;
    best_ = std::move(mixed);
  }
  return added;
}

// The sum over a route is what it costs.
Duals ColumnGeneration::duals_by(const Routes& plan) const {
  Duals duals{std::vector<double>(instance_.nodes(), 0), {}};
  for (const Route& route : plan) {
    const std::vector<double> shares = shares_of(instance_, route);
    const double sum = std::accumulate(shares.begin(), shares.end(), 0.0);
    const double cost = static_cast<double>(length_of(instance_, route)) / program_.unit();
    for (std::size_t k = 0; k < route.size(); k++) {
      duals.potentials[route[k]] = -cost / 2 * (sum > 0 ? shares[k] / sum : 0);
    }
  }
  return duals;
}

void ColumnGeneration::begin_with(const Routes& plan, const std::function<bool()>& late) {
  const Duals whole = duals_by(plan);
  double before = kNoBound;
  for (int part = kColumns.parts_of_plan; part > 0; part--) {
    const double factor = static_cast<double>(part) / kColumns.parts_of_plan;
    Duals duals = whole;
    for (double& potential : duals.potentials) potential *= factor;
    price(duals, duals);
    if (bound_ <= before || late()) return;
    before = bound_;
  }
}

double ColumnGeneration::estimate(int rounds) {
  program_.solve();
  for (int k = 0; k < rounds; k++) {
    const Duals duals = program_.duals();
    table_.least_of_few(links_under(instance_, duals, 1 / program_.unit()), kColumns.few_links);
    if (add_walks(duals) == 0) break;
    program_.solve();
  }
  return program_.value();
}

double ColumnGeneration::run(const Ending& ending) {
  program_.solve();
  bool first = bound_ == kNoBound && !best_.potentials.empty();
  for (int failures = 0, few = 0;;) {
    const Duals duals = program_.duals();
    const double part = first                ? 1
                        : bound_ == kNoBound ? 0
                                             : std::max(0.0, 1 - (failures + 1) * kColumns.step);
    const Duals mix = mixed(duals, part);
    if (large_ && !first && few < kColumns.few_in_a_row && price_few(duals, mix)) {
      few++;
      program_.solve();
      if (ending.late()) break;
      continue;
    }
    few = 0;
    first = false;
    const int added = price(duals, mix);
    const bool near = program_.value() - bound_ < ending.tolerance;
    if (bound_ > ending.goal || ending.late()) break;
    if (near && !(ending.strict && program_.value() > ending.goal)) break;
    if (added == 0 && part <= 0) break;
    failures = added == 0 ? failures + 1 : 0;
    if (added == 0) continue;
    program_.solve();
    program_.drop_walks(kColumns.far * std::abs(program_.value()) / instance_.nodes());
  }
  program_.solve();
  return bound_;
}
}  // namespace certify::routes
