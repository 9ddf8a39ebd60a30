#include "routes/loads.h"

#include <algorithm>
#include <numeric>

#include "routes/route_parameters.h"
#include "running/refusal.h"

namespace certify::routes {
std::optional<Loads> loads_in(const CvrpInstance& instance, Weight unit, Weight most) {
  const Weight rounded = instance.capacity / unit;
  Weight light = 0;  // as many are 0
  for (const int v : instance.customers()) light += static_cast<Weight>(instance.demands[v] < unit);
  if (rounded > most) return std::nullopt;
  const Weight room = rounded * (light + 1) + light;
  if (instance.nodes() * (room + 1) > most) return std::nullopt;
  Loads loads{unit, std::vector<int>(instance.nodes(), 0), static_cast<int>(room)};
  for (const int v : instance.customers()) {
    const Weight load = std::min(instance.demands[v] / unit, rounded) * (light + 1);
    loads.of[v] = static_cast<int>(std::max<Weight>(1, load));
  }
  return loads;
}

Loads finest_loads(const CvrpInstance& instance, Weight most) {
  Weight unit = 0;
  for (const Weight demand : instance.demands) unit = std::gcd(unit, demand);
  unit = std::max<Weight>(1, unit);
  for (; unit <= instance.capacity; unit += std::max<Weight>(1, unit / 20)) {
    if (auto loads = loads_in(instance, unit, most)) return *loads;
  }
  if (auto loads = loads_in(instance, unit, kMostLoads)) return *loads;
  throw Refusal("there are too many customers for a table of loads");
}

template <typename W>
void WalkTable<W>::begin(const Links<W>& links, int count) {
  const std::size_t cells = static_cast<std::size_t>(loads_.cells());
  first_.assign(cells, none());
  second_.assign(cells, none());
  from_first_.assign(cells, 0);
  from_second_.assign(cells, 0);
  least_.assign(loads_.room + 1, none());
  ends_.assign(nodes_, {none(), 0});
  into_.resize(links.size());
  for (int i = 0; i < nodes_; i++) {
    for (int j = 0; j < nodes_; j++) into_[cell(j, i)] = i == j || i == 0 ? none() : links[cell(i, j)];
  }
  light_.resize(nodes_);
  for (int v = 1; v < nodes_; v++) list_light(v, count);
}

template <typename W>
void WalkTable<W>::list_light(int customer, int count) {
  std::vector<Link>& light = light_[customer];
  light.clear();
  for (int i = 1; i < nodes_; i++) {
    if (i != customer) light.push_back({into_[cell(customer, i)], i});
  }
  const std::size_t most = std::min(light.size(), static_cast<std::size_t>(count));
  const auto end = light.begin() + static_cast<std::ptrdiff_t>(most);
  if (end != light.end()) std::nth_element(light.begin(), end, light.end());
  light.erase(end, light.end());
  std::sort(light.begin(), light.end());
}

template <typename W>
void WalkTable<W>::put(int load, int customer, const Best& best) {
  const std::size_t at = cell(load, customer);
  first_[at] = best.first;
  second_[at] = best.second;
  from_first_[at] = static_cast<std::int16_t>(best.from_first);
  from_second_[at] = static_cast<std::int16_t>(best.from_second);
  least_[load] = std::min(least_[load], best.first);
}

// A walk that came from the customer goes on from elsewhere.
template <typename W>
void WalkTable<W>::try_from(int load, int customer, int from, W link, Best& best) const {
  const std::size_t at = cell(load, from);
  const W weight = (from_first_[at] == customer ? second_[at] : first_[at]) + link;
  if (weight >= best.second) return;
  if (weight < best.first) {
    best = {weight, best.first, from, best.from_first};
  } else {
    best.second = weight;
    best.from_second = from;
  }
}

// The best walks with a load to this customer, over its light links. Where a link and the least walk with the
// load weigh too much, so do all heavier links. Where none does, all links are tried.
template <typename W>
typename WalkTable<W>::Best WalkTable<W>::from_light(int load, int customer, bool all) const {
  Best best{none(), none(), 0, 0};
  const W least = least_[load];
  for (const Link& link : light_[customer]) {
    if (least + link.weight >= best.second) return best;
    try_from(load, customer, link.from, link.weight, best);
  }
  if (!all) return best;
  const W* const into = &into_[cell(customer, 0)];
  best = {none(), none(), 0, 0};
  for (int i = 1; i < nodes_; i++) try_from(load, customer, i, into[i], best);
  return best;
}

template <typename W>
void WalkTable<W>::fill(const Links<W>& links, bool all) {
  for (int load = 1; load <= loads_.room; load++) {
    for (int v = 1; v < nodes_; v++) {
      const int before = load - loads_.of[v];
      if (before < 0 || (before > 0 && least_[before] >= none() / 2)) continue;
      Best best{links[v], none(), 0, 0};
      if (before > 0) best = from_light(before, v, all);
      if (best.first >= none() / 2) continue;
      put(load, v, best);
      const W back = best.first + links[cell(v, 0)];
      if (back < ends_[v].weight) ends_[v] = {back, load};
    }
  }
}

template <typename W>
W WalkTable<W>::least_over(const Links<W>& links, int count, bool all) {
  begin(links, count);
  fill(links, all && count < nodes_ - 2);
  W least = none();
  for (const End& end : ends_) least = std::min(least, end.weight);
  return least;
}

template <typename W>
W WalkTable<W>::least(const Links<W>& links) {
  return least_over(links, kColumns.light_links, true);
}

template <typename W>
W WalkTable<W>::least_of_few(const Links<W>& links, int count) {
  return least_over(links, count, false);
}

template <typename W>
Route WalkTable<W>::walk_to(int customer) const {
  Route walk;
  int load = ends_[customer].load, behind = 0;
  for (int v = customer; v != 0;) {
    walk.push_back(v);
    const std::size_t at = cell(load, v);
    const int before = behind != 0 && from_first_[at] == behind ? from_second_[at] : from_first_[at];
    load -= loads_.of[v];
    behind = v;
    v = before;
  }
  std::reverse(walk.begin(), walk.end());
  return walk;
}

template <typename W>
std::vector<Walk<W>> WalkTable<W>::walks(std::size_t most) const {
  std::vector<std::pair<W, int>> order;
  for (int v = 1; v < nodes_; v++) {
    if (ends_[v].weight < none() / 2) order.emplace_back(ends_[v].weight, v);
  }
  std::sort(order.begin(), order.end());
  order.resize(std::min(order.size(), most));
  std::vector<Walk<W>> walks;
  walks.reserve(order.size());
  for (const auto& [weight, v] : order) walks.push_back({weight, walk_to(v)});
  return walks;
}

template class WalkTable<double>;
template class WalkTable<Weight>;
}  // namespace certify::routes
