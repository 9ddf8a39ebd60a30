#include "routes/string_removals.h"

#include <algorithm>
#include <cmath>

#include "running/threads.h"

namespace certify::routes {
StringRemovals::StringRemovals(const CvrpInstance& instance, std::uint64_t seed)
    : instance_(instance),
      nodes_(instance.nodes()),
      random_(seed),
      next_(nodes_, 0),
      previous_(nodes_, 0),
      route_of_(nodes_, -1) {
  list_neighbours();
  set_temperatures();
}

// Of each customer the others, by the costs of both directions.
void StringRemovals::list_neighbours() {
  near_.resize(nodes_);
  for (int i = 1; i < nodes_; i++) {
    for (int j = 1; j < nodes_; j++) {
      if (j != i) near_[i].push_back(j);
    }
    const auto both = [&](int j) { return instance_.costs(i, j) + instance_.costs(j, i); };
    std::stable_sort(near_[i].begin(), near_[i].end(), [&](int a, int b) { return both(a) < both(b); });
  }
}

void StringRemovals::set_temperatures() {
  double sum = 0, count = 1;
  for (int i = 1; i < nodes_; i++) {
    for (std::size_t k = 0; k < std::min<std::size_t>(5, near_[i].size()); k++) {
      sum += std::abs(static_cast<double>(instance_.costs(i, near_[i][k])));
      count++;
    }
  }
  const double average = std::max(0.5, sum / count);
  first_temperature_ = kRemovals.first_temperature * average;
  last_temperature_ = kRemovals.last_temperature * average;
}

void StringRemovals::take(const Routes& routes) {
  first_.assign(nodes_, 0);
  sizes_.assign(nodes_, 0);
  loads_.assign(nodes_, 0);
  saved_in_.assign(nodes_, -1);
  routes_ = 0;
  for (std::size_t k = 0; k < routes.size(); k++) relink(static_cast<int>(k), routes[k]);
  length_ = length_of(instance_, routes);
}

Route StringRemovals::customers_of(int route) const {
  Route customers;
  customers.reserve(sizes_[route]);
  for (int v = first_[route]; v != 0; v = next_[v]) customers.push_back(v);
  return customers;
}

Routes StringRemovals::listed() const {
  Routes routes;
  for (int route = 0; route < nodes_; route++) {
    if (sizes_[route] > 0) routes.push_back(customers_of(route));
  }
  return routes;
}

void StringRemovals::save(int route) {
  if (saved_in_[route] == step_) return;
  saved_in_[route] = step_;
  saved_.push_back({route, customers_of(route)});
}

// Makes a route of these customers.
void StringRemovals::relink(int route, const Route& customers) {
  routes_ += static_cast<int>(!customers.empty()) - static_cast<int>(sizes_[route] > 0);
  first_[route] = 0;
  loads_[route] = 0;
  sizes_[route] = static_cast<int>(customers.size());
  int last = 0;
  for (const int v : customers) {
    (last == 0 ? first_[route] : next_[last]) = v;
    previous_[v] = last;
    next_[v] = 0;
    route_of_[v] = route;
    loads_[route] += instance_.demands[v];
    last = v;
  }
}

void StringRemovals::unlink(int customer) {
  const int route = route_of_[customer], before = previous_[customer], behind = next_[customer];
  const Matrix& costs = instance_.costs;
  length_ -= costs(before, customer) + costs(customer, behind);
  if (sizes_[route] > 1) length_ += costs(before, behind);
  (before == 0 ? first_[route] : next_[before]) = behind;
  if (behind != 0) previous_[behind] = before;
  loads_[route] -= instance_.demands[customer];
  if (--sizes_[route] == 0) routes_--;
  route_of_[customer] = -1;
}

void StringRemovals::link(int customer, const Spot& spot) {
  const int route = spot.route, behind = spot.after == 0 ? first_[route] : next_[spot.after];
  (spot.after == 0 ? first_[route] : next_[spot.after]) = customer;
  if (behind != 0) previous_[behind] = customer;
  previous_[customer] = spot.after;
  next_[customer] = behind;
  route_of_[customer] = route;
  loads_[route] += instance_.demands[customer];
  if (sizes_[route]++ == 0) routes_++;
  length_ += spot.cost;
}

// Strings around one customer, each of another route.
void StringRemovals::remove_strings() {
  const double average = static_cast<double>(nodes_ - 1) / std::max(1, routes_);
  const double longest = std::min(kRemovals.longest_string, average);
  const double most = 4 * kRemovals.removed / (1 + longest) - 1;
  int strings = static_cast<int>(random_.unit() * most + 1) - 1;
  const int seed = 1 + random_.below(nodes_ - 1);
  remove_string(seed, longest);
  for (std::size_t k = 0; k < near_[seed].size() && strings > 0; k++) {
    const int v = near_[seed][k];
    if (route_of_[v] < 0 || saved_in_[route_of_[v]] == step_) continue;
    remove_string(v, longest);
    strings--;
  }
}

// A string of the customer's route with the customer; maybe some between its ends stay.
void StringRemovals::remove_string(int customer, double longest) {
  const int route = route_of_[customer];
  save(route);
  const Route& all = saved_.back().customers;
  const int size = static_cast<int>(all.size());
  const int length = std::min(size, static_cast<int>(random_.unit() * std::min<double>(size, longest) + 1));
  int between = 0;
  if (length > 1 && size > length && random_.unit() < kRemovals.split) {
    between = 1;
    while (length + between < size && random_.unit() < kRemovals.longer_split) between++;
  }
  const int place = static_cast<int>(std::find(all.begin(), all.end(), customer) - all.begin());
  const int whole = length + between;
  const int low = std::max(0, place - whole + 1), high = std::min(place, size - whole);
  const int begin = low + random_.below(high - low + 1);
  const int stay = begin + (between > 0 ? random_.below(length + 1) : length);  // from here on
  for (int k = begin; k < begin + whole; k++) {
    if (k >= stay && k < stay + between) continue;
    unlink(all[k]);
    removed_.push_back(all[k]);
  }
}

// By chance, by demands, or by the costs to the depot.
void StringRemovals::sort_removed() {
  random_.shuffle(removed_);
  const int how = random_.below(11);
  const auto sort_by = [&](const auto& key) {
    std::stable_sort(removed_.begin(), removed_.end(), [&](int a, int b) { return key(a) < key(b); });
  };
  if (how < 4) return;
  if (how < 8) return sort_by([&](int v) { return -instance_.demands[v]; });
  if (how < 10) return sort_by([&](int v) { return -instance_.costs(0, v); });
  sort_by([&](int v) { return instance_.costs(0, v); });
}

// Where this place is cheaper, it is the best one, unless it is overlooked.
void StringRemovals::try_after(int customer, int route, int after, Spot& best) {
  const int behind = after == 0 ? first_[route] : next_[after];
  const Matrix& costs = instance_.costs;
  const Weight cost = costs(after, customer) + costs(customer, behind) - costs(after, behind);
  if (best.route >= 0 && cost >= best.cost) return;
  if (random_.below(kRemovals.overlooked) != 0) best = {route, after, cost};
}

// The best place beside a near customer.
StringRemovals::Spot StringRemovals::near_spot(int customer) {
  Spot best;
  const Weight most = instance_.capacity - instance_.demands[customer];
  const std::vector<int>& near = near_[customer];
  const std::size_t count = std::min<std::size_t>(kRemovals.near, near.size());
  for (std::size_t k = 0; k < count; k++) {
    const int v = near[k], route = route_of_[v];
    if (route < 0 || loads_[route] > most) continue;
    try_after(customer, route, v, best);
    try_after(customer, route, previous_[v], best);
  }
  return best;
}

// The best place of all routes.
StringRemovals::Spot StringRemovals::any_spot(int customer) {
  Spot best;
  const Weight most = instance_.capacity - instance_.demands[customer];
  for (int v = 1; v < nodes_; v++) {
    const int route = route_of_[v];
    if (route < 0 || loads_[route] > most) continue;
    try_after(customer, route, v, best);
    if (previous_[v] == 0) try_after(customer, route, 0, best);
  }
  return best;
}

int StringRemovals::empty_route() {
  return static_cast<int>(std::find(sizes_.begin(), sizes_.end(), 0) - sizes_.begin());
}

void StringRemovals::put_back(int customer) {
  Spot spot = near_spot(customer);
  if (spot.route < 0) spot = any_spot(customer);
  const Weight alone = instance_.costs(0, customer) + instance_.costs(customer, 0);
  if (spot.route < 0 || alone < spot.cost) spot = {empty_route(), 0, alone};
  save(spot.route);
  link(customer, spot);
}

void StringRemovals::restore() {
  for (const Saved& saved : saved_) relink(saved.route, saved.customers);
}

Routes StringRemovals::run(const Routes& first, std::int64_t steps, const std::function<double()>& used) {
  take(first);
  Routes best = listed();
  Weight least = length_;
  double temperature = first_temperature_, next_met = kRemovals.met_from;
  for (std::int64_t k = 0; k < steps; k++, step_++) {
    if (k % 256 == 0) {
      const double part = std::max(static_cast<double>(k) / static_cast<double>(steps), used());
      if (part >= 1) break;
      if (part >= next_met) {
        for (const Route& route : listed()) met_.insert(route);
        next_met += (1 - kRemovals.met_from) / kRemovals.met_plans;
      }
      temperature = first_temperature_ * std::pow(last_temperature_ / first_temperature_, part);
    }
    const Weight before = length_;
    saved_.clear();
    removed_.clear();
    remove_strings();
    sort_removed();
    for (const int v : removed_) put_back(v);
    const auto grown = static_cast<double>(length_ - before);
    if (grown > 0 && grown >= -temperature * std::log(random_.unit() + 1e-12)) {
      restore();
      length_ = before;
    } else if (length_ < least) {
      least = length_;
      best = listed();
    }
  }
  return best;
}

FoundRoutes find_routes(const CvrpInstance& instance, const std::optional<Routes>& given, std::uint64_t seed,
                        const std::function<double()>& used, std::int64_t steps_of_customer) {
  Routes first;
  for (const int v : instance.customers()) first.push_back({v});
  if (given) first = *given;
  const std::int64_t steps =
      std::max(kRemovals.few_steps, steps_of_customer * static_cast<std::int64_t>(instance.nodes()));
  std::vector<Routes> found(kRemovals.runs);
  std::vector<std::set<Route>> met(kRemovals.runs);
  for_each_at_once(found.size(), [&](std::size_t k) {
    StringRemovals removals(instance, seed * 1000 + k);
    found[k] = removals.run(first, steps, used);
    met[k] = removals.met();
  });
  for (std::size_t k = 1; k < met.size(); k++) met[0].merge(met[k]);
  const auto best = std::min_element(found.begin(), found.end(), [&](const Routes& a, const Routes& b) {
    return length_of(instance, a) < length_of(instance, b);
  });
  return {*best, {met[0].begin(), met[0].end()}};
}
}  // namespace certify::routes
