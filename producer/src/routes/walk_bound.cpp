#include "routes/walk_bound.h"

#include <algorithm>
#include <cmath>
#include <utility>

#include "routes/route_parameters.h"

namespace certify::routes {
namespace {
constexpr Weight kMostPotential = 1000000000000000;
constexpr Weight kMostMultipliers = 300000000000000000;
constexpr double kMostNumber = 1e18;  // past both

bool is_within_limits(const LeafNumbers& numbers) {
  Value sum = 0;
  for (const auto& [set, multiplier] : numbers.multipliers) sum += std::abs(multiplier);
  return sum <= kMostMultipliers &&
         std::all_of(numbers.potentials.begin(), numbers.potentials.end(),
                     [](Weight potential) { return std::abs(potential) <= kMostPotential; });
}

// What is past all limits stays past them.
Weight floor_to(double number, Weight grid) {
  const double within = std::clamp(number, -kMostNumber, kMostNumber);
  return static_cast<Weight>(std::floor(within / static_cast<double>(grid))) * grid;
}

template <typename W>
struct MarkedSet {
  const NodeSet& set;
  std::vector<char> inside;  // of each node
  W multiplier;
};

Weight halved_down(Weight number) { return (number - (number % 2 != 0 && number < 0 ? 1 : 0)) / 2; }
}  // namespace

Weight largest_cost(const CvrpInstance& instance) {
  Weight most = 1;
  for (int i = 0; i < instance.nodes(); i++) {
    for (int j = 0; j < instance.nodes(); j++) most = std::max(most, std::abs(instance.costs(i, j)));
  }
  return most;
}

double unit_of_costs(const CvrpInstance& instance) {
  return std::max(1.0, static_cast<double>(largest_cost(instance)) / kColumns.largest_cost);
}

Duals duals_of(const CvrpInstance& instance, const LeafNumbers& numbers, Weight scale) {
  Duals duals;
  const double real = static_cast<double>(scale) * unit_of_costs(instance);
  for (const Weight potential : numbers.potentials)
    duals.potentials.push_back(static_cast<double>(potential) / real);
  duals.potentials[0] = 0;  // (each route is given back what it has of it)
  for (const auto& [set, multiplier] : numbers.multipliers)
    duals.multipliers[set] = static_cast<double>(multiplier) / real;
  return duals;
}

Value given_back(const CvrpInstance& instance, const LeafNumbers& numbers, const std::vector<Limit>& limits) {
  Value sum = 0;
  for (const int v : instance.customers()) sum -= 2 * static_cast<Value>(numbers.potentials[v]);
  const std::map<NodeSet, Crossings> limited = limited_crossings(instance, limits);
  for (const auto& [set, multiplier] : numbers.multipliers) {
    const Crossings own = crossings_under(limited, instance, set);
    sum += static_cast<Value>(multiplier) * (multiplier > 0 ? own.low : own.high);
  }
  return sum;
}

// Row by row: a node has the multipliers of the sets around it on all its links, less those of sets that both
// ends are in.
template <typename W>
Links<W> links_under(const CvrpInstance& instance, const SetNumbers<W>& numbers, W scale) {
  const int nodes = instance.nodes();
  std::vector<MarkedSet<W>> sets;
  for (const auto& [set, multiplier] : numbers.multipliers) {
    if (multiplier != 0) sets.push_back({set, marks_of(set, nodes), multiplier});
  }
  Links<W> links(static_cast<std::size_t>(nodes) * nodes);
  for (int i = 0; i < nodes; i++) {
    W* const row = &links[static_cast<std::size_t>(i) * nodes];
    W around = 0;
    for (int j = 0; j < nodes; j++) {
      row[j] = scale * static_cast<W>(instance.costs(i, j)) + numbers.potentials[i] + numbers.potentials[j];
    }
    for (const MarkedSet<W>& marked : sets) {
      const W less = marked.inside[i] != 0 ? -marked.multiplier : marked.multiplier;
      if (marked.inside[i] != 0) around += marked.multiplier;
      for (const int v : marked.set) row[v] -= less;
    }
    for (int j = 0; j < nodes; j++) row[j] -= around;
  }
  return links;
}
template Links<double> links_under(const CvrpInstance&, const SetNumbers<double>&, double);
template Links<Weight> links_under(const CvrpInstance&, const SetNumbers<Weight>&, Weight);

Weight scale_for(const CvrpInstance& instance) {
  return std::clamp<Weight>(kRouteLeaves.most_scaled_cost / largest_cost(instance), 1, kRouteLeaves.scale);
}

WalkBound::WalkBound(const CvrpInstance& instance, const Loads& loads, Weight scale)
    : instance_(instance), loads_(loads), scale_(scale), unit_(unit_of_costs(instance)), table_(loads_) {}

// Nothing where the numbers are past their limits, or sums might be too large for their type.
std::optional<Weight> WalkBound::least_walk(const LeafNumbers& numbers) {
  if (!is_within_limits(numbers)) return std::nullopt;
  const Links<Weight> links = links_under<Weight>(instance_, numbers, scale_);
  Weight most = 1;
  for (const Weight link : links) most = std::max(most, std::abs(link));
  if (most > WalkTable<Weight>::none() / 2 / (loads_.room + 2)) return std::nullopt;
  return table_.least(links);
}

Value WalkBound::value(const LeafNumbers& numbers, const std::vector<Limit>& limits) {
  const std::optional<Weight> least = least_walk(numbers);
  if (!least) return nothing();
  if (*least >= WalkTable<Weight>::none() / 2) return -nothing();
  const Value route = static_cast<Value>(*least) - 2 * static_cast<Value>(numbers.potentials[0]);
  const int fewest = instance_.fewest_routes(instance_.demand_of(instance_.customers()));
  return given_back(instance_, numbers, limits) + std::min(fewest * route, (instance_.nodes() - 1) * route);
}

LeafNumbers WalkBound::rounded(const Duals& duals, Weight grid) {
  const double scale = static_cast<double>(scale_) * unit_;
  LeafNumbers numbers;
  for (const double potential : duals.potentials) {
    numbers.potentials.push_back(-floor_to(-potential * scale, grid));
  }
  numbers.potentials[0] = 0;
  for (const auto& [set, multiplier] : duals.multipliers) {
    const Weight whole = floor_to(multiplier * scale, grid);
    if (std::abs(multiplier) > kRouteLeaves.least_multiplier && whole != 0) numbers.multipliers[set] = whole;
  }
  return balanced(std::move(numbers), grid);
}

LeafNumbers WalkBound::balanced(LeafNumbers numbers, Weight grid) {
  const std::optional<Weight> least = least_walk(numbers);
  if (least && *least < WalkTable<Weight>::none() / 2) {
    const Weight shift = halved_down(*least) / grid * grid - (halved_down(*least) % grid < 0 ? grid : 0);
    numbers.multipliers[instance_.customers()] += shift;
  }
  std::erase_if(numbers.multipliers, [](const auto& entry) { return entry.second == 0; });
  return numbers;
}
}  // namespace certify::routes
